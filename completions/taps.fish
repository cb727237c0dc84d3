# fish completion for taps(1)
function __taps_words
    count (commandline -opc)
end
complete -c taps -f
complete -c taps -n 'test (__taps_words) = 1' -a plan -d 'print the plan of a file'
complete -c taps -n 'test (__taps_words) = 1' -a sim -d 'race the plan over scripted sockets'
complete -c taps -n 'test (__taps_words) = 1' -a run -d 'race the plan on sockets of the system'
complete -c taps -n 'test (__taps_words) = 1' -a frame -d 'print the bytes of the messages'
complete -c taps -n 'test (__taps_words) = 1' -a unframe -d 'print the messages in bytes'
complete -c taps -n 'test (__taps_words) = 1' -a gen -d 'print the summary of a session that a number generates'
complete -c taps -n 'test (__taps_words) = 2; and not contains (commandline -opc)[2] gen' -F
complete -c taps -n 'test (__taps_words) = 3; and contains (commandline -opc)[2] sim unframe' -F

# Completion of siman's words for fish. Made by tools/manual.py from the program's table of commands: not to be changed by hand.

# Whether the current word stands at this place, and the first one, if one is given, is this command.
function __siman_at
    set -l words (commandline -opc)
    test (count $words) -eq $argv[1]; and begin
        test (count $argv) -eq 1; or test $words[2] = $argv[2]
    end
end

# Whether it stands at this place or behind it, and the first one is this command.
function __siman_behind
    set -l words (commandline -opc)
    test (count $words) -ge $argv[1]; and test $words[2] = $argv[2]
end

# Files that end so, and folders; all files where there are none.
function __siman_files
    set -l current (commandline -ct)
    set -l files $current*.$argv[1]
    if test (count $files) -eq 0
        __fish_complete_path $current
    else
        set -a files $current*/
        printf '%s\n' $files
    end
end

# Files that end so and stand nowhere on the line so far, and folders; all files where none of their folder ends so.
function __siman_others
    set -l current (commandline -ct)
    set -l all (string replace -r '[^/]*$' '' -- $current)*.$argv[1]
    if test (count $all) -eq 0
        __siman_files $argv[1]
    else
        set -l named (commandline -opc)
        set -l offered $current*/
        for file in $current*.$argv[1]
            contains -- $file $named; or set -a offered $file
        end
        test (count $offered) -eq 0; or printf '%s\n' $offered
    end
end

# Folders: in one of them a file is to be made.
function __siman_folders
    __fish_complete_directories (commandline -ct) ''
end

complete -c siman -f
complete -c siman -n '__siman_at 1' -l help -s h -d 'Print help'
complete -c siman -n '__siman_at 1' -l version -s V -d 'Print version'
complete -c siman -n '__siman_at 1' -a help -d 'Print the help, or that of a command'
complete -c siman -n '__siman_at 2 help' -a 'pdu pdus show check audit world plan live station convert mend join import export review log count why chart'
complete -c siman -n '__siman_at 1' -a pdu -d 'Shows the PDU of a datagram'
complete -c siman -n '__siman_at 1' -a pdus -d 'Shows the PDUs of many datagrams, whose hex texts are read from standard input, one a line'
complete -c siman -n '__siman_at 1' -a show -d 'Shows a recording, a line for each entry'
complete -c siman -n '__siman_at 2 show' -a '(__siman_files dsrc)'
complete -c siman -n '__siman_behind 3 show' -a '--torn'
complete -c siman -n '__siman_at 1' -a check -d 'Checks whether a certificate explains a recording, and reports what it says'
complete -c siman -n '__siman_at 2 check' -a '(__siman_files dsrc)'
complete -c siman -n '__siman_at 3 check' -a '(__siman_files dsct)'
complete -c siman -n '__siman_behind 4 check' -a '--torn'
complete -c siman -n '__siman_at 1' -a audit -d 'Searches a recording for a sequence that explains it, and writes its certificate'
complete -c siman -n '__siman_at 2 audit' -a '(__siman_files dsrc)'
complete -c siman -n '__siman_at 3 audit' -a '(__siman_folders)'
complete -c siman -n '__siman_behind 4 audit' -a '--torn --force'
complete -c siman -n '__siman_at 1' -a world -d 'Runs the exercise that a script describes, and writes its recording'
complete -c siman -n '__siman_at 2 world' -a '(__siman_files script)'
complete -c siman -n '__siman_at 3 world' -a '(__siman_folders)'
complete -c siman -n '__siman_behind 4 world' -a '--force'
complete -c siman -n '__siman_at 1' -a plan -d 'Says what each line of a script does, and writes the plain script of one with labels and comments'
complete -c siman -n '__siman_at 2 plan' -a '(__siman_files plan)'
complete -c siman -n '__siman_behind 3 plan' -a '(__siman_folders)'
complete -c siman -n '__siman_behind 3 plan' -a '--json --force'
complete -c siman -n '__siman_at 1' -a live -d 'Makes the moves of a script over UDP sockets of the loopback, one a station, and writes their recording'
complete -c siman -n '__siman_at 2 live' -a '(__siman_files script)'
complete -c siman -n '__siman_at 3 live' -a '(__siman_folders)'
complete -c siman -n '__siman_at 1' -a station -d 'Plays a station of a script over UDP, by the lines of standard input, and writes what it sends, receives and tells'
complete -c siman -n '__siman_at 2 station' -a '(__siman_files script)'
complete -c siman -n '__siman_at 4 station' -a '(__siman_folders)'
complete -c siman -n '__siman_behind 6 station' -a 'from=any keep=all clock=system'
complete -c siman -n '__siman_at 1' -a convert -d 'Carries a recording of the first format over to the second, closed'
complete -c siman -n '__siman_at 2 convert' -a '(__siman_files dsrc)'
complete -c siman -n '__siman_at 3 convert' -a '(__siman_folders)'
complete -c siman -n '__siman_behind 4 convert' -a '--force'
complete -c siman -n '__siman_at 1' -a mend -d 'Keeps the entries of a torn recording that stand whole, and writes them with an end'
complete -c siman -n '__siman_at 2 mend' -a '(__siman_files dsrc)'
complete -c siman -n '__siman_at 3 mend' -a '(__siman_folders)'
complete -c siman -n '__siman_behind 4 mend' -a '--force'
complete -c siman -n '__siman_at 1' -a join -d 'Joins the recordings of one exercise that several recorders made'
complete -c siman -n '__siman_behind 2 join' -a '(__siman_others dsrc)'
complete -c siman -n '__siman_behind 2 join' -a 'form=open form=closed parts=yes --force'
complete -c siman -n '__siman_at 1' -a import -d 'Makes the recording of a station of a capture that tcpdump or Wireshark took on its host'
complete -c siman -n '__siman_at 2 import' -a '(__siman_files script)'
complete -c siman -n '__siman_at 5 import' -a '(__siman_files pcap)'
complete -c siman -n '__siman_at 6 import' -a '(__siman_folders)'
complete -c siman -n '__siman_behind 7 import' -a 'port= on= cut=keep shared echo opening=none opening=assumed --force'
complete -c siman -n '__siman_at 1' -a export -d 'Writes the datagrams of a recording as a capture, which Wireshark and tshark show as DIS'
complete -c siman -n '__siman_at 2 export' -a '(__siman_files dsrc)'
complete -c siman -n '__siman_at 3 export' -a '(__siman_folders)'
complete -c siman -n '__siman_behind 4 export' -a '--torn --force'
complete -c siman -n '__siman_at 1' -a review -d 'Prints what became of each order of a recording, and how each entity lived'
complete -c siman -n '__siman_at 2 review' -a '(__siman_files dsrc)'
complete -c siman -n '__siman_behind 3 review' -a 'station= entity= request= fate=done fate=answered fate=refused fate=pending fate=unheard fate=unanswered fate=lost fate=unknown fate=nobody --json --prose --torn'
complete -c siman -n '__siman_at 1' -a log -d 'Prints each entry of a recording in names, with every datum and what goes with it'
complete -c siman -n '__siman_at 2 log' -a '(__siman_files dsrc)'
complete -c siman -n '__siman_behind 3 log' -a 'station= entity= request= kind=create-entity kind=remove-entity kind=start-resume kind=stop-freeze kind=acknowledge kind=action-request kind=action-response kind=data-query kind=set-data kind=data kind=event-report kind=comment kind=told kind=other --json --torn'
complete -c siman -n '__siman_at 1' -a count -d 'Prints how many entries each station of a recording sent, received and told, by kind'
complete -c siman -n '__siman_at 2 count' -a '(__siman_files dsrc)'
complete -c siman -n '__siman_behind 3 count' -a 'station= entity= request= kind=create-entity kind=remove-entity kind=start-resume kind=stop-freeze kind=acknowledge kind=action-request kind=action-response kind=data-query kind=set-data kind=data kind=event-report kind=comment kind=told kind=other --json --torn'
complete -c siman -n '__siman_at 1' -a why -d 'Prints what contradicts what: in a certificate that is not good, or in a recording that no sequence explains'
complete -c siman -n '__siman_at 2 why' -a '(__siman_files dsrc)'
complete -c siman -n '__siman_behind 3 why' -a '(__siman_files dsct)'
complete -c siman -n '__siman_behind 3 why' -a '--json --torn'
complete -c siman -n '__siman_at 1' -a chart -d 'Draws an exercise in the sequence of its certificate, or up to where it is contradicted, and writes the picture'
complete -c siman -n '__siman_at 2 chart' -a '(__siman_files dsrc)'
complete -c siman -n '__siman_at 3 chart' -a '(__siman_files dsct)'
complete -c siman -n '__siman_at 4 chart' -a '(__siman_folders)'
complete -c siman -n '__siman_behind 5 chart' -a '--torn --force'

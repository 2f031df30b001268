# Completes what is typed behind recline, in fish. share/make writes this file from share/commands.

# The command in front of the cursor and its arguments, a line each. It fails where the cursor stands in the value of an option.
function __recline_words
    set -l words (commandline -opc)
    set -l found
    set -e words[1]
    while set -q words[1]
        switch $words[1]
            case --at --failed --idle --port --sessions --why --workers
                set -q words[2]; or return 1
                set -e words[1]
            case --
                set -a found $words[2..-1]
                break
            case '*'
                string match -qr -- '^-.' $words[1]; or set -a found $words[1]
        end
        set -e words[1]
    end
    string join \n -- $found
    return 0
end

# Whether a command stands in front of the cursor, or none where it is empty, with so many arguments.
function __recline_stands
    set -l found (__recline_words); or return
    test "$found[1]" = "$argv[1]"; or return
    test -n "$argv[1]"; and set -e found[1]
    test (count $found) = $argv[2]
end

# Whether a command stands there, or none, without any of these options.
function __recline_takes
    set -l found (__recline_words); or return
    test "$found[1]" = "$argv[1]"; or return
    for option in $argv[2..-1]
        contains -- $option (commandline -opc | string replace -r '=.*' ''); and return 1
    end
    return 0
end

complete -c recline -f
complete -c recline -n '__recline_stands "" 0' -a run -d 'Answers each line of standard input, a report or a question, on standard output'
complete -c recline -n '__recline_stands "" 0' -a serve -d 'Serves clients that connect by TCP, until it is told to end, or so many sessions ended'
complete -c recline -n '__recline_stands "" 0' -a check -d 'Checks a certificate against a record file, and prints YES, or NO with the cause'
complete -c recline -n '__recline_stands "" 0' -a line -d 'Prints the recovery line for a record file, as the reply to \'LINE NAMES\''
complete -c recline -n '__recline_stands "" 0' -a garbage -d 'Prints the line before which all checkpoints are obsolete, as the reply to \'GARBAGE\''
complete -c recline -n '__recline_stands "" 0' -a show -d 'Prints what a record file contains'
complete -c recline -n '__recline_stands "" 0' -a explain -d 'Says which call a line is, or what is wrong with it'
complete -c recline -n '__recline_stands "" 0' -a drive -d 'Stamps the steps of a script and prints the lines that report them'
complete -c recline -n '__recline_stands "" 0' -a draw -d 'Draws the history of a script with its recovery line as SVG'
complete -c recline -n '__recline_stands "" 0' -a help -d 'Print this message or the help of the given subcommand(s)'
complete -c recline -n '__recline_takes "" -h --help' -s h -l help -d 'Print help'
complete -c recline -n '__recline_takes "" -V --version' -s V -l version -d 'Print version'
complete -c recline -n '__recline_takes "run" --explain' -l explain -d 'Also prints on standard error why a file or a stream failed, in the system\'s words'
complete -c recline -n '__recline_takes "run" -h --help' -s h -l help -d 'Print help'
complete -c recline -n '__recline_stands "run" 0' -F
complete -c recline -n '__recline_takes "serve" --port' -l port -x -d 'The port on this machine, 0 to 65535; 0 lets the system choose'
complete -c recline -n '__recline_takes "serve" --workers' -l workers -x -d 'How many clients to answer at once, 1 to 64'
complete -c recline -n '__recline_takes "serve" --sessions' -l sessions -x -d 'Ends after so many sessions, 1 to 4096; without it never'
complete -c recline -n '__recline_takes "serve" --idle' -l idle -x -d 'After how many silent seconds a client is disconnected, 1 to 4294967295; without it never'
complete -c recline -n '__recline_takes "serve" --until-input-ends' -l until-input-ends -d 'Ends, in order, at the end of standard input, a pipe or a terminal; at once for a file or /dev/null'
complete -c recline -n '__recline_takes "serve" --explain' -l explain -d 'Also prints on standard error why a file or a stream failed, in the system\'s words'
complete -c recline -n '__recline_takes "serve" -h --help' -s h -l help -d 'Print help'
complete -c recline -n '__recline_stands "serve" 0' -F
complete -c recline -n '__recline_takes "check" --at' -l at -x -d 'Uses only the first FRONT records, 0 to 16384; without it all'
complete -c recline -n '__recline_takes "check" --explain' -l explain -d 'Also prints on standard error why a file or a stream failed, in the system\'s words'
complete -c recline -n '__recline_takes "check" -h --help' -s h -l help -d 'Print help'
complete -c recline -n '__recline_stands "check" 0' -F
complete -c recline -n '__recline_stands "check" 1' -F
complete -c recline -n '__recline_takes "line" --at' -l at -x -d 'Uses only the first FRONT records, 0 to 16384; without it all'
complete -c recline -n '__recline_takes "line" --explain' -l explain -d 'Also prints on standard error why a file or a stream failed, in the system\'s words'
complete -c recline -n '__recline_takes "line" -h --help' -s h -l help -d 'Print help'
complete -c recline -n '__recline_stands "line" 0' -F
complete -c recline -n '__recline_takes "garbage" --at' -l at -x -d 'Uses only the first FRONT records, 0 to 16384; without it all'
complete -c recline -n '__recline_takes "garbage" --explain' -l explain -d 'Also prints on standard error why a file or a stream failed, in the system\'s words'
complete -c recline -n '__recline_takes "garbage" -h --help' -s h -l help -d 'Print help'
complete -c recline -n '__recline_stands "garbage" 0' -F
complete -c recline -n '__recline_takes "show" --at' -l at -x -d 'Uses only the first FRONT records, 0 to 16384; without it all'
complete -c recline -n '__recline_takes "show" --reports' -l reports -d 'Also prints each record'
complete -c recline -n '__recline_takes "show" --json' -l json -d 'Prints JSON'
complete -c recline -n '__recline_takes "show" --explain' -l explain -d 'Also prints on standard error why a file or a stream failed, in the system\'s words'
complete -c recline -n '__recline_takes "show" -h --help' -s h -l help -d 'Print help'
complete -c recline -n '__recline_stands "show" 0' -F
complete -c recline -n '__recline_takes "explain" -h --help' -s h -l help -d 'Print help'
complete -c recline -n '__recline_takes "drive" --comments' -l comments -d 'Skips lines of the script that are empty or begin with \'#\''
complete -c recline -n '__recline_takes "drive" --explain' -l explain -d 'Also prints on standard error why a file or a stream failed, in the system\'s words'
complete -c recline -n '__recline_takes "drive" -h --help' -s h -l help -d 'Print help'
complete -c recline -n '__recline_stands "drive" 0' -F
complete -c recline -n '__recline_takes "draw" --comments' -l comments -d 'Skips lines of the script that are empty or begin with \'#\''
complete -c recline -n '__recline_takes "draw" --records' -l records -d 'SCRIPT is a record file, and its reports are drawn'
complete -c recline -n '__recline_takes "draw" --failed' -l failed -x -d 'The processes that failed, separated by commas, or \'-\' for none'
complete -c recline -n '__recline_takes "draw" --why' -l why -x -d 'With --records, draws why this process has to return'
complete -c recline -n '__recline_takes "draw" --at' -l at -x -d 'Uses only the first FRONT records, 0 to 16384; without it all'
complete -c recline -n '__recline_takes "draw" --explain' -l explain -d 'Also prints on standard error why a file or a stream failed, in the system\'s words'
complete -c recline -n '__recline_takes "draw" -h --help' -s h -l help -d 'Print help'
complete -c recline -n '__recline_stands "draw" 0' -F
complete -c recline -n '__recline_stands "help" 0' -a run -d 'Answers each line of standard input, a report or a question, on standard output'
complete -c recline -n '__recline_stands "help" 0' -a serve -d 'Serves clients that connect by TCP, until it is told to end, or so many sessions ended'
complete -c recline -n '__recline_stands "help" 0' -a check -d 'Checks a certificate against a record file, and prints YES, or NO with the cause'
complete -c recline -n '__recline_stands "help" 0' -a line -d 'Prints the recovery line for a record file, as the reply to \'LINE NAMES\''
complete -c recline -n '__recline_stands "help" 0' -a garbage -d 'Prints the line before which all checkpoints are obsolete, as the reply to \'GARBAGE\''
complete -c recline -n '__recline_stands "help" 0' -a show -d 'Prints what a record file contains'
complete -c recline -n '__recline_stands "help" 0' -a explain -d 'Says which call a line is, or what is wrong with it'
complete -c recline -n '__recline_stands "help" 0' -a drive -d 'Stamps the steps of a script and prints the lines that report them'
complete -c recline -n '__recline_stands "help" 0' -a draw -d 'Draws the history of a script with its recovery line as SVG'
complete -c recline -n '__recline_stands "help" 0' -a help -d 'Print this message or the help of the given subcommand(s)'

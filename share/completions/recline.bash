# Completes what is typed behind recline, in bash. share/make writes this file from share/commands.

# Sets the options of a command, and what completes each of its arguments; those of the program, where the command is empty.
_recline_take() {
    case "$1" in
    "") options=(-h --help -V --version) arguments=(command) ;;
    run) options=(--explain -h --help) arguments=(path) ;;
    serve) options=(--port --workers --sessions --idle --until-input-ends --explain -h --help) arguments=(path) ;;
    check) options=(--at --explain -h --help) arguments=(path path) ;;
    line) options=(--at --explain -h --help) arguments=(path nothing) ;;
    garbage) options=(--at --explain -h --help) arguments=(path) ;;
    show) options=(--at --reports --json --explain -h --help) arguments=(path) ;;
    explain) options=(-h --help) arguments=(nothing) ;;
    drive) options=(--comments --explain -h --help) arguments=(path) ;;
    draw) options=(--comments --records --failed --why --at --explain -h --help) arguments=(path) ;;
    help) options=() arguments=(command) ;;
    *) options=() arguments=() ;;
    esac
}

# Whether a value follows an option.
_recline_has_value() {
    [[ "$1" = @(--at|--failed|--idle|--port|--sessions|--why|--workers) ]]
}

# Takes the words in front of the cursor. Sets 'place' to what the word at the cursor is: the value of an option, a file that a stream
# comes from or goes to, or any other word.
_recline_read() {
    local at before
    for ((at = 1; at < COMP_CWORD; at++)); do
        before=${COMP_WORDS[at]}
        given+="${before%%=*} "
        if [[ "$before" = [\<\>]* ]]; then
            place=file at=$((at + 1))
        elif [[ "$before" = +([0-9]) && "${COMP_WORDS[at + 1]}" = [\<\>]* ]]; then
            : # the number of a stream
        elif [[ -z "$ended" && "$before" = -- ]]; then
            ended=yes
        elif [[ -z "$ended" ]] && _recline_has_value "$before"; then
            place=value at=$((at + 1))
            [[ "${COMP_WORDS[at]}" != = ]] || at=$((at + 1))
        elif [[ -n "$ended" || "$before" != -?* ]]; then
            _recline_argument "$before"
        fi
    done
    [ "$at" -gt "$COMP_CWORD" ] || place=word
}

# Takes an argument, of which the first is the command.
_recline_argument() {
    if [ -z "$command" ]; then
        command=$1
        _recline_take "$command"
    else
        arguments=("${arguments[@]:1}")
    fi
}

# Adds the options that are not given yet and begin as the word does.
_recline_options() {
    local option
    for option in "${options[@]}"; do
        [[ "$option" != "$word"* || "$given" = *" $option "* ]] || COMPREPLY+=("$option")
    done
}

# Sets COMPREPLY to what may stand in place of the word at the cursor.
_recline() {
    local word=${COMP_WORDS[COMP_CWORD]} command='' given=" " ended='' place='' options arguments
    COMPREPLY=()
    _recline_take ""
    _recline_read
    # Behind '<' or '>' the word begins.
    [[ "$word" != [\<\>]* ]] || word='' place=file
    if [ "$place" = value ]; then
        return
    elif [[ "$place" = word && -z "$ended" && ("$word" = -* || ${#arguments[@]} = 0) ]]; then
        _recline_options
    elif [[ "$place" = word && "${arguments[0]:-}" = command ]]; then
        mapfile -t COMPREPLY < <(compgen -W "run serve check line garbage show explain drive draw help" -- "$word")
    elif [[ "$place" = file || "${arguments[0]:-}" = path ]]; then
        # Where this finds nothing bash completes the path by itself.
        compopt -o filenames -o default 2>/dev/null
        mapfile -t COMPREPLY < <(compgen -f -- "$word")
    fi
}

complete -F _recline recline

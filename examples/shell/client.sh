# Asks dfshell through pipes: for a script in POSIX sh, which reads this by a dot.

# shell_open PROGRAM [WORD ..]: begins a session, and writes the lines of refused chunks. It takes the descriptors 3 and 4.
shell_open() {
    shell_program=$1
    shift
    shell_pipes=$(mktemp -d) && mkfifo "$shell_pipes/asked" "$shell_pipes/answered" || return 2
    "$shell_program" --framed "$@" <"$shell_pipes/asked" >"$shell_pipes/answered" &
    shell_process=$!
    exec 3>"$shell_pipes/asked" 4<"$shell_pipes/answered"
    rm -r "$shell_pipes"
    trap '' PIPE # a session that has ended is told by a status
    shell_answer
}

# Writes the lines of an answer. Status 1: the command is refused, and this is why, with the code in shell_code; 2: the session has ended.
shell_answer() {
    IFS=' ' read -r shell_status shell_lines shell_code <&4 || return 2
    while [ "$shell_lines" -gt 0 ]; do
        IFS= read -r shell_line <&4 || return 2
        printf '%s\n' "$shell_line"
        shell_lines=$((shell_lines - 1))
    done
    [ "$shell_status" != error ]
}

# shell_ask COMMAND [LINE ..]: the answer to a command, behind which lines of CSV may follow.
shell_ask() {
    printf '%s\n' "$@" >&3 || return 2
    shell_answer
}

# Ends the session, with its status.
shell_close() {
    exec 3>&-
    wait "$shell_process"
}

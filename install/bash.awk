# Makes the completion for bash: awk -v program=NAME -f rows.awk -f bash.awk NAME.options.

# A text as a word of bash and of zsh.
function quoted(string) {
    gsub(apostrophe, apostrophe "\\" apostrophe apostrophe, string)
    return apostrophe string apostrophe
}

# Makes the words that complete a row: an array of bash, the arguments of `compgen`.
function source_of(row) {
    if (completion[row] == "file") return "(-f)"
    if (completion[row] == "interface") return "(-W \"$(ls /sys/class/net 2> /dev/null)\")"
    if (completion[row] == "command") return "(-W " quoted(all_commands()) ")"
    return "(-W " quoted(choices(row)) ")"
}

function print_head() {
    print "# The completion of " program " for bash, made of a table of its options."
    print ""
    print "_" program "() {"
    print "    local now=\"$2\" before=\"$3\" command=- options=\"\" source=(-W \"\") at"
    print "    # A value may stand behind `=`, which is a word of its own here."
    print "    [[ $before != = ]] || before=\"${COMP_WORDS[COMP_CWORD - 2]}\""
    print "    [[ $now != = ]] || now=\"\" before=\"${COMP_WORDS[COMP_CWORD - 1]}\""
}

# The first word that is not an option is the command.
function print_command() {
    print "    for ((at = 1; at < COMP_CWORD; at++)); do"
    print "        case \"${COMP_WORDS[at]}\" in"
    print "            -*) ;;"
    print "            *) command=\"${COMP_WORDS[at]}\" && break ;;"
    print "        esac"
    print "    done"
}

# An option with a value is followed by that value. If the value is optional, another option may
# follow instead.
function print_values(    row) {
    for (row = 1; row <= rows; row++) {
        if (!is_option(row) || !takes_value(row) || may_lack_value(row)) continue
        print "        " quoted(command[row] " " word[row]) ") source=" source_of(row) " ;;"
    }
}

# Elsewhere an option or an argument of the command follows. The first argument that has a completion
# decides for all. For the program itself, a command follows.
function print_words(name,    row, options, source) {
    source = name == "-" && commands > 0 ? "(-W " quoted(all_commands()) ")" : "(-W '')"
    for (row = rows; row > 0; row--) {
        if (command[row] != name) continue
        if (is_option(row)) options = word[row] " " options
        if (is_argument(row) && completion[row] != "-") source = source_of(row)
    }
    gsub(/,/, "", options)
    sub(/ $/, "", options)
    print "        " quoted(name " ") "*)"
    print "            options=" quoted(options)
    print "            source=" source
    print "            ;;"
}

function print_end() {
    print "    esac"
    print "    if [[ $now == -* && -n $options ]]; then source=(-W \"$options\"); fi"
    print "    [[ ${source[0]} != -f ]] || compopt -o filenames 2> /dev/null"
    print "    mapfile -t COMPREPLY < <(compgen \"${source[@]}\" -- \"$now\")"
    print "}"
    print ""
    print "complete -F _" program " " program
}

END {
    if (failed) exit 1
    print_head()
    if (commands > 0) print_command()
    print "    case \"$command $before\" in"
    print_values()
    print_words("-")
    for (at = 1; at <= commands; at++) print_words(names[at])
    print_end()
}

# Makes the completion for zsh: awk -v program=NAME -f rows.awk -f zsh.awk NAME.options.

# A text as a word of bash and of zsh.
function quoted(string) {
    gsub(apostrophe, apostrophe "\\" apostrophe apostrophe, string)
    return apostrophe string apostrophe
}

# A text as a part of a specification of `_arguments`, in which brackets and colons are special.
function escaped(string) {
    gsub(/\[|\]|:/, "\\\\&", string)
    return string
}

# What completes a value or an argument, as an action of `_arguments`.
function action_of(row) {
    if (completion[row] == "file") return "_files"
    if (completion[row] == "interface") return "_net_interfaces"
    if (completion[row] == "command") return "(" all_commands() ")"
    if (choices(row) != "") return "(" choices(row) ")"
    return " "
}

function print_specification(indent, specification) {
    print indent "    " quoted(specification) " \\"
}

# An option, once for each of its forms. Help and the version exclude other options.
function print_option(indent, row,    at, count, forms, specification) {
    count = split(word[row], forms, ", ")
    for (at = 1; at <= count; at++) {
        specification = forms[at]
        if (word[row] ~ /--(help|version)$/) specification = "(- : *)" specification
        if (may_repeat(row)) specification = "*" specification
        if (takes_value(row)) specification = specification "="
        specification = specification "[" escaped(text[row]) "]"
        if (takes_value(row)) {
            specification = specification (may_lack_value(row) ? "::" : ":") \
                escaped(value_name(row)) ":" action_of(row)
        }
        print_specification(indent, specification)
    }
}

# The call of `_arguments` for a command, or for the program itself.
function print_arguments(indent, name,    row, position, place) {
    print indent "_arguments -C \\"
    for (row = 1; row <= rows; row++) if (command[row] == name) {
        if (is_option(row)) print_option(indent, row)
        if (is_argument(row)) {
            place = value[row] == ".." ? "*" : ++position
            print_specification(indent, place ":" escaped(text[row]) ":" action_of(row))
        }
    }
    if (name == "-" && commands > 0) {
        print_specification(indent, "1:command:->command")
        print_specification(indent, "*::argument:->argument")
    }
    print indent "    && return"
}

function print_commands(    row, at) {
    print "case $state in"
    print "    command)"
    print "        local -a commands=("
    for (row = 1; row <= rows; row++) if (word[row] == "-") {
        print "            " quoted(command[row] ":" text[row])
    }
    print "        )"
    print "        _describe -t commands command commands"
    print "        ;;"
    print "    argument)"
    print "        case $words[1] in"
    for (at = 1; at <= commands; at++) {
        print "            " names[at] ")"
        print_arguments("                ", names[at])
        print "                ;;"
    }
    print "        esac"
    print "        ;;"
    print "esac"
}

END {
    if (failed) exit 1
    print "#compdef " program
    print "# The completion of " program " for zsh, made of a table of its options."
    print ""
    print "local curcontext=\"$curcontext\" state line"
    print "typeset -A opt_args"
    print_arguments("", "-")
    if (commands > 0) print_commands()
}

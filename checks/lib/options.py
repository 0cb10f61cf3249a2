"""The options of a program: as its --help tells them, as its page does, as the table does of which
its completions are made, and as the completions themselves give them.

An option is told by its forms and its value, as `-h, --help` or `--format FORMAT`; a value that may
be left out stands in brackets. A command is told by its name, the program itself by `-`.
"""

import re
import subprocess

FORM = r"(?<![\w-])--?[A-Za-z][\w-]*"


def spell(forms, value="", optional=False):
    """An option in one spelling."""
    value = f" [{value}]" if value and optional else f" {value}" if value else ""
    return ", ".join(forms) + value


def block(text, title):
    """The lines of a help under a title, up to an empty line."""
    _, found, rest = f"\n{text}".partition(f"\n{title}:\n")
    return rest.split("\n\n")[0].splitlines() if found else []


def read_lines(help_text, title):
    """The lines of a help under a title: each name, its text, and the values that it may have."""
    for line in block(help_text, title):
        name, _, rest = line.strip().partition("  ")
        text, _, values = rest.strip().partition("[possible values: ")
        yield name, text.rstrip(), values.removesuffix("]").split(", ") if values else []


def read_block(text):
    """The options, and the choices of their values, and the arguments of a command's help."""
    options, choices = set(), {}
    for name, _, values in read_lines(text, "Options"):
        value = re.search(r"<([^>]+)>", name)
        option = spell(re.findall(FORM, name), value[1] if value else "", "[" in name)
        options.add(option)
        choices[option] = values
    arguments = [re.search(r"[<[](\w+)", name)[1] for name, _, _ in read_lines(text, "Arguments")]
    return options, choices, arguments


def ask_help(*command):
    done = subprocess.run(command, capture_output=True, text=True, timeout=600)
    if done.returncode != 0 or not done.stdout:
        raise SystemExit(f"failed: {' '.join(map(str, command))}: no help\n{done.stderr}")
    return done.stdout


def help_of_commands(program, read=read_block):
    """What is read in the help of a program with commands, of the program itself and of each."""
    whole = ask_help(program, "--help")
    found = {"-": read(whole)}
    for name, _, _ in read_lines(whole, "Commands"):
        found[name] = read(ask_help(program, "help", name))
    return found


def help_of_one(program):
    """What --help of a program without commands prints: its usage, and a list after it."""
    text = ask_help(program, "--help")
    usage, listed = text.split("\n\n")[1], text.split("\n\n")[2:]
    value = r"(?: (\[?)([A-Z][A-Z0-9:,]*)\]?)?"
    found = re.findall(f"(--[a-z-]+){value}", usage)
    found += re.findall(f"^  (--[a-z-]+){value}", "\n\n".join(listed), re.MULTILINE)
    options = {spell([form], name, bool(bracket)) for form, bracket, name in found}
    return {"-": (options, {option: [] for option in options}, [])}


def help_in_source(source):
    """The help that a source in C has as its string `usage`."""
    text = re.search(r"usage\[\] =\n((?:\s*\".*\"\n?)+);", source)[1]
    return "".join(re.findall(r'"(.*)"', text)).replace("\\n", "\n")


def read_table(text):
    """The same of the table of which the completions are made."""
    told = {"-": (set(), {}, [])}
    for line in text.splitlines():
        if not line or line.startswith("#"):
            continue
        command, word, value, completion, _ = re.split("  +", line)
        options, choices, arguments = told.setdefault(command, (set(), {}, []))
        if word.startswith("-") and word != "-":
            name = "" if value == "-" else value.removesuffix(" ..").strip("[]")
            option = spell(word.split(", "), name, value.startswith("["))
            options.add(option)
            free = completion in ("-", "file", "interface", "command")
            choices[option] = [] if free else completion.split(",")
        elif word != "-":
            arguments.append(word)
    return told


def read_page(text):
    """The options that a page in mdoc lists, by the command under whose head they stand."""
    told, command = {"-": set()}, "-"
    for line in text.splitlines():
        if line.startswith((".Sh ", ".Ss ")):
            command = line.split()[1] if line.startswith(".Ss ") else "-"
            if command != "-":
                told[command] = set()
        elif line.startswith(".It Fl "):
            forms = [f"-{form}" for form in re.findall(r"Fl (\S+)", line)]
            value = re.search(r"Ar (\S+)", line)
            told[command].add(spell(forms, value[1] if value else "", "Op Ar" in line))
    return told


def tell_differences(program, command, source, wanted, found):
    """A line for each word that one alone has."""
    name = program if command == "-" else f"{program} {command}"
    lacks = [f"{source} lacks `{word}` of {name}" for word in wanted if word not in found]
    more = [f"--help lacks `{word}` of {name}: {source}" for word in found if word not in wanted]
    return lacks + more


def compare_files(program, told, folder):
    """What the table and the page have otherwise than the help."""
    faults = []
    rows = read_table((folder / f"{program}.options").read_text())
    items = read_page((folder / f"{program}.1").read_text())
    table, page = f"install/{program}.options", f"install/{program}.1"
    for name, found in ((table, rows), (page, items)):
        faults += tell_differences(program, "-", name, sorted(told), sorted(found))
    for command in sorted(set(told) & set(rows)):
        options, choices, arguments = rows[command]
        wanted, wanted_choices, wanted_arguments = told[command]
        faults += tell_differences(program, command, table, sorted(wanted), sorted(options))
        if arguments != wanted_arguments:
            faults.append(f"{table} has {arguments} of {command}, --help {wanted_arguments}")
        for option in sorted(wanted & options):
            faults += tell_differences(
                program, f"{command} {option}", table, wanted_choices[option], choices[option]
            )
    for command in sorted(set(told) & set(items)):
        wanted, found = sorted(told[command][0]), sorted(items[command])
        faults += tell_differences(program, command, page, wanted, found)
    return faults


def compare_shell(program, told, shell):
    """What a shell completes differently from the help."""
    faults = []
    commands = sorted(command for command in told if command != "-")
    if commands:
        found = shell.ask(program, "")
        faults += tell_differences(program, "-", shell.name, commands, found)
    for command, (options, choices, _) in sorted(told.items()):
        before = [program] if command == "-" else [program, command]
        wanted = sorted(form for option in options for form in re.findall(FORM, option))
        if wanted:
            found = shell.ask(*before, "-")
            faults += tell_differences(program, command, shell.name, wanted, found)
        for option in options:
            if choices[option]:
                form = re.findall(FORM, option)[-1]
                found = shell.ask(*before, form, "")
                wanted = sorted(choices[option])
                place = f"{command} {form}"
                faults += tell_differences(program, place, shell.name, wanted, found)
    return faults


def compare(prefix, folder, shells):
    """How many options the programs below a folder have, and what the files of `folder` and shells
    say differently about them."""
    count, faults = 0, []
    for program in sorted(path.name for path in (prefix / "bin").iterdir()):
        path = prefix / "bin" / program
        told = (help_of_one if program == "geostation-link" else help_of_commands)(path)
        count += sum(len(options) for options, _, _ in told.values())
        files = compare_files(program, told, folder)
        # Shells complete what the table has. What is wrong with the table is reported once.
        if not files:
            files = [fault for shell in shells for fault in compare_shell(program, told, shell)]
        faults += files
    return count, faults

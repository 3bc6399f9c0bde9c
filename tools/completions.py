"""The completions of a program's words, for bash, zsh and fish."""
import re

# The names of values that are paths.
PATHS = ('FILE', 'FOLDER', 'LIST', 'REPORTS', 'STATEMENT')


def first_clause(entry):
    """What an option is, up to its first full stop, colon, semicolon or bracket."""
    return re.split(r'[.:;](?:\s|$)| \(', entry.text)[0]


def choices(entry):
    """The words of which an option takes one, if it says so: in braces, or behind a colon at its end."""
    value, told = entry.value() or '', re.search(r': (\w+(?:, \w+)+)$', entry.text)
    return value.strip('{}').split(',') if value.startswith('{') else told[1].split(', ') if value and told else []


def bash(name, interface):
    """Options, and the commands if it has any; else names of files."""
    offered = [word for entry in interface.options for word in entry.names() if word.startswith('--')]
    offered += [word for _, own in interface.commands for entry in own.options for word in entry.names() if word.startswith('--')]
    offered += [entry.written for entry, _ in interface.commands]
    yield f"complete -o default -W '{' '.join(dict.fromkeys(offered))}' {name}"


def zsh_text(text):
    return re.sub(r'([\[\]:\\])', r'\\\1', text).replace("'", "'\\''")


def zsh_options(interface):
    """The specifications of options for `_arguments`."""
    for entry in interface.options:
        value, words = entry.value(), choices(entry)
        action = '' if value is None else f':value:({" ".join(words)})' if words else f':{value}:' + ('_files' if value in PATHS else ' ')
        for word in entry.names():
            yield f"'*{word}{'=-' if entry.wants_equals() else ''}[{zsh_text(first_clause(entry))}]{action}'"


def zsh(name, interface):
    yield f'#compdef {name}'
    if not interface.commands:
        yield ' \\\n  '.join(['_arguments', *zsh_options(interface), "'*:file:_files'"])
        return
    told = ' '.join(f'{entry.written}\\:"{zsh_text(first_clause(entry))}"' for entry, _ in interface.commands)
    yield 'local context state state_descr line'
    yield ' \\\n  '.join(['_arguments -C', *zsh_options(interface), f"'1:command:(({told}))'", "'*::word:->words'"])
    yield 'case $words[1] in'
    for entry, own in interface.commands:
        yield f'{entry.written})'
        yield ' \\\n  '.join(['_arguments', *zsh_options(own), "'*:file:_files'"])
        yield ';;'
    yield 'esac'


def fish_options(name, interface, condition):
    for entry in interface.options:
        value, words = entry.value(), choices(entry)
        names = ' '.join(f'-l {word[2:]}' if word.startswith('--') else f'-s {word[1:]}' for word in entry.names())
        takes = '' if value is None else f" -x -a '{' '.join(words)}'" if words else ' -r -F' if value in PATHS else ' -x'
        text = first_clause(entry).replace('\\', '\\\\').replace("'", "\\'")
        yield f"complete -c {name}{condition} {names}{takes} -d '{text}'"


def fish(name, interface):
    yield from fish_options(name, interface, '')
    for entry, own in interface.commands:
        text = first_clause(entry).replace("'", "\\'")
        yield f"complete -c {name} -n __fish_use_subcommand -x -a {entry.written} -d '{text}'"
        yield from fish_options(name, own, f" -n '__fish_seen_subcommand_from {entry.written}'")


SHELLS = {'bash': bash, 'zsh': zsh, 'fish': fish}


def text(shell, name, interface):
    """The completions of a program for a shell."""
    return '\n'.join(SHELLS[shell](name, interface)) + '\n'

#!/usr/bin/env python3
"""Writes what comes from the tables jobs.tsv and programs.tsv: what --help prints of each program, the completions for bash and zsh, and the man pages.

    tools/make.py           writes the files
    tools/make.py --check   says which of them are stale, and ends with 1 where one is
"""
import os
import sys
import textwrap

from words import HERE, Table

TABLES = {name: Table(name) for name in ("stackc", "layerfmt", "runchart", "stackhunt", "stackcheck")}
SCRIPT_WORDS = [
    ("--help", "prints this"),
    ("--version", "prints the commit of the sources and the kit"),
    ("--prove", "proves and builds the program, which takes an hour or so at first"),
    ("--trial", "before the other words: runs the build that is not proved, which is made in some minutes and kept"),
]
HERE_WORDS = [name for name, _ in SCRIPT_WORDS]
FROM = "made by tools/make.py from tools/jobs.tsv and tools/programs.tsv"
FIRST = {
    "stackc": "Runs stackc: checks stack files, fuses them into bypasses, runs scripts and nodes over them, and audits reports.",
    "layerfmt": "Runs layerfmt: lays out a layer file.",
    "runchart": "Runs runchart: draws a report.",
    "stackhunt": "Runs stackhunt: looks for a script whose report breaks a law of the group.",
    "stackcheck": "Runs stackcheck: tries all scripts of a family for a law of the group.",
}
NAMES = {
    "stackc": "checks, fuses, runs and audits stacks of protocol layers",
    "layerfmt": "lays out a file of protocol layers",
    "runchart": "draws the report of a run of protocol layers",
    "stackhunt": "looks for a run in which protocol layers break a law of their group",
    "stackcheck": "tries all runs of a family in which protocol layers might break a law of their group",
}


def rows(pairs, indent="  "):
    """Lines of two columns, of which the second may go on below."""
    width = max(len(left) for left, _ in pairs) + 2
    lines = []
    for left, right in pairs:
        parts = textwrap.wrap(right, 118 - width - len(indent)) or [""]
        lines.append(f"{indent}{left:{width}}{parts[0]}".rstrip())
        lines += [f"{indent}{'':{width}}{part}" for part in parts[1:]]
    return lines


def meaning(table, name):
    """What a word is, with the values that it may have."""
    form, says = table.words[name]
    if form[0] == "one":
        return ", ".join(form[1:-1]) + f" or {form[-1]}: {says}"
    if form[0] in ("number", "members"):
        return f"{says}: {form[1]} to {form[2]}"
    return says


def help_text(table):
    """What --help prints: each job's words with what it writes below them."""
    lines = [FIRST[table.program], ""]
    for job in table.jobs.values():
        lines += [f"  {job.usage()}", *textwrap.wrap(job.says, 108, initial_indent="      ", subsequent_indent="      ")]
    for note in table.notes:
        lines += ["", *textwrap.wrap(note, 116)]
    lines += ["", *rows([(name, meaning(table, name)) for name in table.words]), "", *rows(SCRIPT_WORDS), "", "It ends with"]
    lines += rows([(number, says + (f" (`{line}`)" if line else "")) for number, line, says in table.statuses])
    lines += ["", "docs/LANGUAGE.md has the forms of files, and README.md begins."]
    return "\n".join(lines) + "\n"


def values(table, name):
    """The words that a value can be chosen from."""
    form = table.words[name][0]
    return form[1:] if form[0] == "one" else []


def endings(table, name):
    """What the names of files end with that a word names; nothing where it names none."""
    form = table.words[name][0]
    return form[1:] if form[0] == "file" else []


BASH = r"""# Completions of stackc, layerfmt, runchart, stackhunt and stackcheck for bash, @FROM.
# To have them: source tools/completions/stackc.bash

_stackc_files() {
  local current=$1 names=() ending
  shift
  for ending; do mapfile -t -O "${#names[@]}" names < <(compgen -f -X "!*.$ending" -- "$current"); done
  mapfile -t -O "${#names[@]}" names < <(compgen -d -- "$current")
  [ "${#names[@]}" -gt 0 ] || mapfile -t names < <(compgen -f -- "$current")
  COMPREPLY=("${names[@]}")
  compopt -o filenames 2>/dev/null || true
}

_stackc() {
  local current=${COMP_WORDS[COMP_CWORD]} before="" name=${COMP_WORDS[0]##*/} options="" valued="" kinds="" place=0 at=1 word
  COMPREPLY=()
  [ "$COMP_CWORD" -eq 0 ] || before=${COMP_WORDS[COMP_CWORD - 1]}
  # Readline cuts `--run=layered` into three words.
  if [ "$current" = "=" ]; then current=""; elif [ "$before" = "=" ]; then before=${COMP_WORDS[COMP_CWORD - 2]}; fi
  [ "${COMP_WORDS[1]-}" != --trial ] || [ "$COMP_CWORD" -eq 1 ] || at=2
  if [ "$COMP_CWORD" -eq "$at" ] && { [ "$name" = stackc ] || [[ $current == --* ]]; }; then
    word=""
    [ "$name" != stackc ] || word="@JOBS"
    [ "$at" -eq 2 ] || word="$word @HERE"
    mapfile -t COMPREPLY < <(compgen -W "$word" -- "$current")
    [ "$name" != stackc ] || return
  fi
  [ "$name" != stackc ] || { name="stackc ${COMP_WORDS[at]}"; at=$((at + 1)); }
  case $name in
@CASES
  *) return ;;
  esac
  if [[ " $valued " == *" $before "* ]]; then
    case $name$before in
@VALUES
    esac
    return
  fi
  if [[ $current == -* ]]; then
    mapfile -t -O "${#COMPREPLY[@]}" COMPREPLY < <(compgen -W "$options" -- "$current")
    return
  fi
  while [ "$at" -lt "$COMP_CWORD" ]; do
    word=${COMP_WORDS[at]}
    if [[ " $valued " == *" $word "* ]]; then
      at=$((at + 1)); [ "${COMP_WORDS[at]-}" != "=" ] || at=$((at + 1))
    elif [[ $word != -* ]]; then
      place=$((place + 1))
    fi
    at=$((at + 1))
  done
  read -ra kinds <<<"$kinds"
  if [ "$place" -lt "${#kinds[@]}" ]; then
    # shellcheck disable=SC2086 # (endings with a comma between)
    _stackc_files "$current" ${kinds[place]//,/ }
  else
    mapfile -t COMPREPLY < <(compgen -W "$options" -- "$current")
  fi
}

complete -F _stackc stackc ./stackc layerfmt ./layerfmt runchart ./runchart stackhunt ./stackhunt stackcheck ./stackcheck
"""


def each_job():
    """Each job of each program, with its table."""
    return [(table, job) for table in TABLES.values() for job in table.jobs.values()]


def full_name(job):
    """How a job is called: by its program, and its name if it has one."""
    return f"{job.program} {job.name}".rstrip()


def bash_case(table, job):
    """The options of a job, those of them that have a value, and what the names of its files end with."""
    valued = " ".join(option for option, value in job.options.items() if value)
    kinds = " ".join(",".join(endings(table, place)) for place in job.places)
    return f"  '{full_name(job)}') options=\"{' '.join(job.options)}\" valued=\"{valued}\" kinds=\"{kinds}\" ;;"


def bash_values(table, job):
    """What bash offers for values of a job's options: words to choose from, or files."""
    for option, value in job.options.items():
        if value and values(table, value):
            yield f"    '{full_name(job)}{option}') mapfile -t COMPREPLY < <(compgen -W \"{' '.join(values(table, value))}\" -- \"$current\") ;;"
        elif value and endings(table, value):
            yield f"    '{full_name(job)}{option}') _stackc_files \"$current\" {' '.join(endings(table, value))} ;;"


def bash():
    fills = {
        "FROM": FROM,
        "JOBS": " ".join(TABLES["stackc"].jobs),
        "HERE": " ".join(HERE_WORDS),
        "CASES": "\n".join(bash_case(table, job) for table, job in each_job()),
        "VALUES": "\n".join(arm for table, job in each_job() for arm in bash_values(table, job)),
    }
    return filled(BASH, fills)


def filled(text, fills):
    """A text with each @NAME in it replaced, the longest names first."""
    for name in sorted(fills, key=len, reverse=True):
        text = text.replace(f"@{name}", fills[name])
    return text


ZSH = r"""#compdef stackc layerfmt runchart stackhunt stackcheck
# Completions of stackc, layerfmt, runchart, stackhunt and stackcheck for zsh, @FROM.
# To have them: put this folder into fpath, before compinit.

_stackc() {
  local curcontext="$curcontext" state line
  typeset -A opt_args
  case $service in
@PROGRAMS
  esac
  _arguments -C \
@HERE
    '1:job:->job' \
    '*::words:->words' && return
  case $state in
  job)
    local -a jobs
    jobs=(
@JOBS
    )
    _describe job jobs
    ;;
  words)
    case $words[1] in
@CASES
    esac
    ;;
  esac
}

_stackc "$@"
"""


def quoted(text):
    """A text within single quotes, and within brackets or after a colon of zsh."""
    return text.replace("'", "'\\''").replace("[", "\\[").replace("]", "\\]").replace(":", "\\:")


def zsh_files(table, name):
    """What zsh offers for a file."""
    return "_files -g \"" + " ".join(f"*.{ending}" for ending in endings(table, name)) + "\""


def zsh_specs(table, job):
    """The words of a job as _arguments wants them."""
    specs = []
    for option, value in job.options.items():
        if value is None:
            specs.append(f"'{option}[{quoted(table.words[option][1])}]'")
            continue
        choices = f"({' '.join(values(table, value))})" if values(table, value) else " "
        if endings(table, value):
            choices = zsh_files(table, value)
        specs.append(f"'{option}=[{quoted(meaning(table, value))}]:{value}:{choices}'")
    for k, place in enumerate(job.places):
        specs.append(f"'{k + 1}:{quoted(table.words[place][1])}:{zsh_files(table, place)}'")
    return specs


def zsh_case(name, specs, more=""):
    return f"    {name})\n      _arguments \\\n        " + " \\\n        ".join(specs) + f"\n{more}      ;;"


def zsh():
    alone = "(- *)"
    here = [f"'{'' if name == '--trial' else alone}{name}[{quoted(says)}]'" for name, says in SCRIPT_WORDS]
    stackc = TABLES["stackc"]
    fills = {
        "FROM": FROM,
        "PROGRAMS": "\n".join(zsh_case(name, here + zsh_specs(table, table.jobs[""]), "      return\n") for name, table in TABLES.items() if table is not stackc),
        "HERE": "\n".join(f"    {spec} \\" for spec in here),
        "JOBS": "\n".join(f"      '{job.name}:{quoted(job.says)}'" for job in stackc.jobs.values()),
        "CASES": "\n".join(zsh_case(job.name, zsh_specs(stackc, job)) for job in stackc.jobs.values()),
    }
    return filled(ZSH, fills)


def roff(text):
    return text.replace("\\", "\\e").replace("-", "\\-").replace("'", "\\(aq").replace("`", "")


def man_jobs(table):
    """What the jobs of a program write, or what it writes that has one alone."""
    if "" in table.jobs:
        return [f"It writes {roff(table.jobs[''].says)}."]
    lines = ["The jobs, by their first words, write to the standard output:"]
    for job in table.jobs.values():
        lines += [".TP", f".B {job.name}", roff(job.says) + "."]
    return lines


def man(table):
    """The man page of a program."""
    name = table.program
    lines = [f'.\\" {FROM[0].upper() + FROM[1:]}.', f".TH {name.upper()} 1", ".SH NAME", f"{name} \\- {NAMES[name]}", ".SH SYNOPSIS"]
    for job in table.jobs.values():
        lines += [f".B {full_name(job)}", roff(job.form), ".br"]
    lines += [".SH DESCRIPTION", *man_jobs(table)]
    for note in table.notes:
        lines += [".PP", roff(note)]
    lines += [".PP", "Words come in any order but those that name files; a value stands after its option or after =; after \\-\\- there are no options."]
    lines += [".SH OPTIONS AND FILES"]
    for word in table.words:
        lines += [".TP", f".B {roff(word)}", roff(meaning(table, word)) + "."]
    lines += [".PP", "The script that runs the program takes these words before the others:"]
    for word, says in SCRIPT_WORDS:
        lines += [".TP", f".B {roff(word)}", roff(says) + "."]
    lines += [".PP", "To it a file of the name \\- is the standard input, unless there is one of that name."]
    lines += [".SH EXIT STATUS"]
    for number, line, says in table.statuses:
        lines += [".TP", f".B {number}", roff(says) + (f"; the line on the standard error is\n.IR \"{roff(line)}\" ." if line else ".")]
    lines += [".PP", "Where the standard error is a terminal, the line that a refusal names is shown after it, with what is at fault there."]
    lines += [".SH SEE ALSO", ", ".join(f"{other}(1)" for other in TABLES if other != name) + "; README.md and docs/LANGUAGE.md of the repository."]
    return "\n".join(lines) + "\n"


def files():
    """What is made, by its name."""
    made = {"completions/stackc.bash": bash(), "completions/_stackc": zsh()}
    for name, table in TABLES.items():
        made["help.txt" if name == "stackc" else f"{name}-help.txt"] = help_text(table)
        made[f"{name}.1"] = man(table)
    return made


def read(path):
    try:
        with open(path, encoding="utf-8") as file:
            return file.read()
    except FileNotFoundError:
        return None


def main():
    stale = 0
    for name, text in files().items():
        path = os.path.join(HERE, name)
        if sys.argv[1:] == ["--check"]:
            if read(path) != text:
                stale += 1
                print(f"tools/{name} is stale: tools/make.py writes it")
        else:
            with open(path, "w", encoding="utf-8") as file:
                file.write(text)
    sys.exit(stale != 0)


if __name__ == "__main__":
    main()

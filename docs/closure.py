#!/usr/bin/env python3
"""What has to be read to know what a clause says.

A page has a table of files under a line '<!-- closure: SOURCE CLAUSE ..; at most F files, L lines -->', or with 'beyond CLAUSE ..' in
front of the semicolon where the table leaves out what those clauses need. From the clauses of SOURCE, by the definitions that they name, and
those that these name, down to std: each table has to name just the files that these definitions stand in. A line counts where it is of a
definition or of its comment, and not blank.

From the top of the repository:  python3 docs/closure.py PAGE ..        prints what differs
                                 python3 docs/closure.py --show PAGE    prints the files, with their lines and definitions
"""
import os
import re
import sys

NAME = r"[A-Za-z_][A-Za-z_0-9'\-]*"
HEAD = r'^(?:abbrev pub|unfoldable pub|pub record|pub data|abbrev|pub|record|data)\s+(\S+)'


class File:
    """The definitions of a file of specs, each with its lines, and where its imports come from."""

    def __init__(self, path):
        text = open(path).read()
        self.path, self.items, self.imports, self.modules = path, {}, {}, {}
        for kind, names, other in re.findall(r'^(?:pub |ghost )?use ([\w.]+?)(?:\.\{(.*)\})?(?: as (\w+))?;?$', text, re.M):
            for name in filter(None, (part.strip() for part in names.split(','))):
                first, _, second = name.partition(' as ')
                self.imports[second or first] = (kind, first)
            if other:
                self.modules[other] = kind
        for block in re.split(r'\n\s*\n', text):
            lines = [line for line in block.split('\n') if line and not re.match(r'(pub )?(use|mod) ', line)]
            found = re.search(HEAD, '\n'.join(lines), re.M)
            if found:
                self.items[found.group(1)] = lines
                if 'data ' in block:
                    self.items.update((made, lines) for made in re.findall(r'^  (?:pub )?(\w+) :', block, re.M))


def words(lines):
    """The names that a definition uses, without those that it binds itself."""
    used, clauses = set(), []
    for line in (line for line in lines if not line.lstrip().startswith('--')):
        if line[0] == ' ' and clauses:
            clauses[-1] += line
        else:
            clauses.append(line)
    for clause in clauses:
        bound = set(' '.join(re.findall(r'λ ((?:%s )*%s)\.' % (NAME, NAME), clause)).split())
        bound |= set(' '.join(re.findall(r'[({]((?:%s )*%s) :' % (NAME, NAME), clause)).split())
        sides = re.match(r'(%s)((?:[ (]).*?)? = (.*)' % NAME, clause)
        if sides and not re.match(HEAD, clause):
            left = set(re.findall(NAME, sides.group(2) or ''))
            bound |= {name for name in left if name[0].islower() and name + '.' not in (sides.group(2) or '')}
            clause = ' '.join(left - bound) + ' ' + sides.group(3)
        else:
            clause = re.sub(HEAD, '', clause)
        clause = re.sub(r'([{;] *)%s = ' % NAME, r'\1', clause)
        used |= set(re.findall(NAME, re.sub(r'\.%s' % NAME, '', clause))) - bound
    return used


def item_of_source(crate, path, name):
    """A type of the code, in the file of its module."""
    for place in ('/'.join(path), '/'.join(path[:-1])):
        file = f'crates/{crate}/src/{place}.rt'
        if place and os.path.exists(file):
            found = re.search(r'((?:^(?:///|#\[).*\n)*)^pub (?:struct|enum) %s\b(?:.*\n)*?^}' % path[-1], open(file).read(), re.M)
            return file, [line for line in found.group(0).split('\n') if line] if found else []
    return None


FILES = {}


def file(path):
    if path not in FILES:
        FILES[path] = File(path)
    return FILES[path]


def closure(start):
    """The definitions that these need, by their files: (module, name) first."""
    found, left, seen = {}, list(start), set()
    while left:
        module, name = left.pop()
        if (module, name) in seen or not module.startswith('Rattle.'):
            continue
        seen.add((module, name))
        crate, _, rest = module[len('Rattle.'):].partition('.specs.')
        if rest.startswith('declared.'):
            item = item_of_source(crate, [part for part in rest.split('.')[1:] if part != 'TheVariants'], name)
            if item:
                found.setdefault(item[0], {})[' '.join(item[1][:9])] = (rest.split('.')[-1], item[1])
            continue
        path = f'crates/{crate}/specs/{rest.replace(".", "/")}.antt'
        if not os.path.exists(path):
            continue
        here = file(path)
        if name not in here.items:
            if name in here.imports:
                left.append(here.imports[name])
            continue
        lines = here.items[name]
        found.setdefault(path, {})[lines[0] + lines[-1]] = (re.search(HEAD, '\n'.join(lines), re.M).group(1), lines)
        for word in words(lines):
            if word in here.items and word != name:
                left.append((module, word))
            elif word in here.imports:
                left.append(here.imports[word])
            elif word in here.modules:
                left.append((here.modules[word], word))
    return found


def clauses(path, labels):
    """The names that clauses of a source, or laws that it states, bring in."""
    text, start = open(path).read(), []
    here = file(path)
    for label in labels:
        at = re.search(r'^    (?:ensures|requires) %s \{' % re.escape(label), text, re.M) or re.search(r'^pub fn %s\(.*?ensures \{' % re.escape(label), text, re.M | re.S)
        if not at:
            sys.exit(f'{path}: no clause {label}')
        depth, end = 1, at.end()
        while depth:
            depth += {'{': 1, '}': -1}.get(text[end], 0)
            end += 1
        start += [here.imports[word] for word in set(re.findall(NAME, text[at.end():end])) if word in here.imports]
    return start


def tables(page):
    """Each closure that a page states: its source, clauses, those left out, bounds, and the files that its table names."""
    text = open(page).read()
    for found in re.finditer(r'<!-- closure: (\S+) ([\w ]+?)(?: beyond ([\w ]+))?; at most (\d+) files, (\d+) lines -->(.*?)(?=<!-- closure|\Z)', text, re.S):
        source, names, beyond, files, lines, rest = found.groups()
        table = re.search(r'(?:^\|.*\n)+', rest, re.M).group(0)
        yield source, names.split(), (beyond or '').split(), int(files), int(lines), re.findall(r'^\| `(\S+?)`', table, re.M)


def main(arguments):
    show = '--show' in arguments
    for page in (argument for argument in arguments if argument != '--show'):
        for source, names, beyond, most_files, most_lines, named in tables(page):
            less = closure(clauses(source, beyond))
            needed = {}
            for path, items in closure(clauses(source, names + beyond)).items():
                more = {key: item for key, item in items.items() if key not in less.get(path, {})}
                if more:
                    needed[path] = more
            lines = sum(len(item[1]) for items in needed.values() for item in items.values())
            if show:
                for path, items in sorted(needed.items()):
                    print(path, sum(len(item[1]) for item in items.values()), *sorted(item[0] for item in items.values()))
                print(f'{page}: {" ".join(names)}: {len(needed)} files, {lines} lines')
            wanted = {path[len('crates/'):] for path in needed}
            for path in sorted(wanted - set(named)):
                print(f'{page}: {" ".join(names)}: leaves out {path}')
            for path in sorted(set(named) - wanted):
                print(f'{page}: {" ".join(names)}: needs no {path}')
            if len(needed) > most_files or lines > most_lines:
                print(f'{page}: {" ".join(names)}: {len(needed)} files and {lines} lines, where at most {most_files} and {most_lines} are said')


main(sys.argv[1:])

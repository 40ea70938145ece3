"""Reads the sources, the definitions and the proofs of all crates: what stands where, and what names what. For `tools/rests` and
`tools/house`; it is no command itself.
"""
import gc
import glob
import os
import pickle
import re
import sys
import tempfile



# --- Tokens -------------------------------------------------------------------------------------------------------------------

TOKEN = re.compile(r'''
    (?P<skip>\s+|//[^\n]*|/\*.*?\*/)
  | (?P<str>b?"(?:\\.|[^"\\])*")
  | (?P<char>b?'(?:\\[^']*|[^\\'\n])')
  | (?P<life>'[a-z_]\w*)
  | (?P<id>[^\W\d]\w*'*)
  | (?P<num>\d[\d_]*(?:\.\d+)?\w*)
  | (?P<op>::|->|=>|\.\.=|\.\.|&&|\|\||[=!<>+\-*/%^&|]=|<<|>>|.)
''', re.X | re.S)
GHOST_TOKEN = re.compile(r"(?P<skip>\s+|--[^\n]*)|(?P<str>\"(?:\\.|[^\"\\])*\")|(?P<id>[^\W\d][\w'-]*)|(?P<num>\d+)|(?P<op>.)", re.S)


class Token:
    __slots__ = ('kind', 'text', 'line', 'tight')

    def __init__(self, kind, text, line, tight):
        self.kind, self.text, self.line, self.tight = kind, text, line, tight  # tight: no blank before it


def tokens_of(text, pattern, line=1):
    tokens, tight = [], False
    for match in pattern.finditer(text):
        word = match.group()
        if match.lastgroup == 'skip':
            tight = False
        else:
            tokens.append(Token(match.lastgroup, word, line, tight))
            tight = True
        line += word.count('\n')
    return tokens


PAIRS = {'(': ')', '[': ']', '{': '}'}


def closing(tokens, i):
    """The index behind the bracket that closes the one at i."""
    depth = 0
    while i < len(tokens):
        text = tokens[i].text
        if text in PAIRS:
            depth += 1
        elif text in (')', ']', '}'):
            depth -= 1
            if depth == 0:
                return i + 1
        i += 1
    return i


def angles(tokens, i):
    """The index behind the `>` that closes the `<` at i."""
    depth = 0
    while i < len(tokens):
        text = tokens[i].text
        if text in PAIRS:
            i = closing(tokens, i)
            continue
        depth += {'<': 1, '<<': 2, '>': -1, '>>': -2}.get(text, 0)
        i += 1
        if depth <= 0:
            break
    return i


def split_at(tokens, mark):
    """The parts between top-level marks."""
    parts, part, i = [], [], 0
    while i < len(tokens):
        text = tokens[i].text
        if text in PAIRS or text == '<':
            end = closing(tokens, i) if text in PAIRS else angles(tokens, i)
            part += tokens[i:end]
            i = end
            continue
        if text == mark:
            parts.append(part)
            part = []
        else:
            part.append(tokens[i])
        i += 1
    return parts + [part] if part else parts


# --- Items ----------------------------------------------------------------------------------------------------------------------

class Item:
    """A function, definition, type, constant, trait, or ghost member of a trait or an impl."""

    def __init__(self, kind, name, file, line, last):
        self.kind, self.name, self.file, self.line, self.last = kind, name, file, line, last
        self.first = line      # with the comments and attributes above it
        self.owner = None      # of a method or ghost member: the name of its type or trait
        self.owner_item = None # that type or trait, where it is ours
        self.owner_type = None # of a method or an impl: the type, as tokens
        self.of_trait = None   # of an impl of a trait: the trait's path, as tokens
        self.trait = None      # of a method in an impl of a trait: the trait's path, as tokens
        self.in_trait = None   # of a method or ghost member that a trait declares: the trait
        self.clauses = []      # of a function: (requires or ensures, name or '', line, tokens)
        self.parts = []        # of a definition or a type: (name of the field or '', tokens)
        self.body = None       # of a function: its tokens
        self.head = line       # of a function: the last line of its signature
        self.params = []       # of a function: (pattern tokens, type tokens)
        self.result = None     # of a function: type tokens
        self.generics = {}     # its type parameters, with the traits that bound each
        self.members = {}      # of a struct: its fields; of an enum: its variants, each with its fields; as type tokens
        self.supers = []
        self.is_test = False
        self.scope = {}        # what `ghost use` inside its impl brings in
        self.impls = []        # of what a trait declares: what the impls have for it
        self.users = {}        # the items that name it: for each, how, under which name of a clause or field, and in which line

    def shown(self):
        if self.trait is not None:
            return f'{self.name} of {named(self.trait)} for {self.owner}'
        if self.in_trait is not None:
            return f'{self.name} of the trait {self.owner}'
        return f'{self.name} of {self.owner}' if self.owner else self.name

    def key(self):
        return self.file.order, self.file.path, self.line


def named(tokens):
    """The last name of a path."""
    tokens = [t for t in tokens if t.kind != 'life']
    depth, last = 0, ''
    for token in tokens:
        depth += {'<': 1, '>': -1, '>>': -2}.get(token.text, 0)
        if depth == 0 and token.kind == 'id':
            last = token.text
    return last


class File:
    def __init__(self, path, order):
        self.path, self.order = path, order
        parts = path.split('/')
        self.crate = parts[1]
        self.is_spec = parts[2] == 'specs'
        names = path[:path.rindex('.')].split('/')[3:]
        self.module = () if names in (['lib'], ['main']) else tuple(names)
        self.lines = open(path, encoding='utf-8').read().split('\n')
        self.items = []
        self.uses = {}    # names that `use` brings in, as paths
        self.ghosts = {}  # names that `ghost use` brings in, as paths in Rattle
        self.globs = []

    def first_line(self, line):
        """The line where the comments and attributes above a line begin."""
        while line > 1 and re.match(r'\s*(//|#\[|--)', self.lines[line - 2]):
            line -= 1
        return line


def use_paths(tokens):
    """The names that a `use` brings in, each with its path."""
    found = {}

    def walk(part, prefix):
        path, i = list(prefix), 0
        while i < len(part):
            text = part[i].text
            if text == '{':
                for inner in split_at(part[i + 1:closing(part, i) - 1], ','):
                    walk(inner, path)
                return
            if text == 'as':
                found[part[i + 1].text] = path
                return
            if text == '*':
                found.setdefault('*', []).append(path)
                return
            if part[i].kind in ('id', 'op') and text not in ('::', '.'):
                path = path + [text]
            i += 1
        if path:
            found[path[-1]] = path[:-1] if path[-1] == 'self' else path
            if path[-1] == 'self':
                found[path[-2]] = found.pop('self')
    walk(tokens, [])
    return found


def generics_of(tokens):
    """Type parameters with their bounds, as names of traits."""
    bounds = {}
    for part in split_at(tokens, ','):
        if not part or part[0].kind == 'life' or part[0].text == 'const':
            continue
        colon = next((i for i, t in enumerate(part) if t.text == ':'), len(part))
        bounds[part[0].text] = [named(b) for b in split_at(part[colon + 1:], '+')]
        for bound in split_at(part[colon + 1:], '+'):
            for i, token in enumerate(bound):
                if token.text == '=' and i:  # H: Hub<Pass = P>: the types H::Pass and P are one
                    bounds[part[0].text + '::' + bound[i - 1].text] = bound[i + 1:-1]
    return bounds


class Reader:
    """Reads the items of a file of code."""

    def __init__(self, file):
        self.file = file
        self.tokens = tokens_of('\n'.join(file.lines), TOKEN)
        self.items(0, len(self.tokens), None)

    def add(self, kind, name, at, end, context):
        item = Item(kind, name, self.file, self.tokens[at].line, self.tokens[end - 1].line)
        item.first = self.file.first_line(item.line)
        if context:
            item.owner, item.owner_type, item.trait, item.in_trait = context.owner, context.type, context.trait, context.declares
            item.generics.update(context.generics)
            item.scope = context.scope
        self.file.items.append(item)
        return item

    def items(self, i, end, context):
        tokens, is_test = self.tokens, False
        while i < end:
            text = tokens[i].text
            if text == '#':
                start = i + (2 if tokens[i + 1].text == '!' else 1)
                stop = closing(tokens, start)
                is_test = is_test or [t.text for t in tokens[start:stop]] == ['[', 'test', ']']
                i = stop
                continue
            if text == 'pub' and tokens[i + 1].text == '(':
                i = closing(tokens, i + 1)
                continue
            if text == 'fn':
                i = self.function(i, context, is_test)
            elif text in ('use', 'mod', 'type', 'const', 'static') or text == 'ghost':
                if text == 'const' and tokens[i + 1].text == 'fn':
                    i += 1
                    continue
                i = self.short(i, context)
            elif text in ('struct', 'enum'):
                i = self.type(i)
            elif text in ('trait', 'impl'):
                i = self.block(i)
            else:
                i += 1
                continue
            is_test = False

    def short(self, i, context):
        tokens, text = self.tokens, self.tokens[i].text
        end = i
        while tokens[end].text != ';':
            end = closing(tokens, end) if tokens[end].text in PAIRS else end + 1
        end += 1
        if text == 'use':
            uses = use_paths(tokens[i + 1:end - 1])
            self.file.globs += uses.pop('*', [])
            self.file.uses.update(uses)
        elif text == 'ghost' and tokens[i + 1].text == 'use':
            (context.scope if context else self.file.ghosts).update(use_paths(tokens[i + 2:end - 1]))
        elif text == 'ghost':
            item = self.add('ghost', tokens[i + 1].text, i, end, context)
            item.parts.append(('', tokens[i + 2:end]))
        elif text == 'type' and context:
            equals = next((k for k in range(i, end) if tokens[k].text in ('=', ':')), end)
            context.types[tokens[i + 1].text] = (tokens[equals].text, tokens[equals + 1:end - 1])
        elif text in ('type', 'const', 'static'):
            item = self.add('alias' if text == 'type' else 'const', tokens[i + 1].text, i, end, context)
            item.parts.append(('', tokens[i + 2:end]))
            if text == 'type':
                equals = next(k for k in range(i, end) if tokens[k].text == '=')
                item.result = tokens[equals + 1:end - 1]
                if tokens[i + 2].text == '<':
                    item.generics = generics_of(tokens[i + 3:angles(tokens, i + 2) - 1])
        return end

    def type(self, i):
        tokens = self.tokens
        start, name, kind = i, tokens[i + 1].text, tokens[i].text
        i += 2
        generics = {}
        if tokens[i].text == '<':
            stop = angles(tokens, i)
            generics = generics_of(tokens[i + 1:stop - 1])
            i = stop
        body = tokens[i + 1:closing(tokens, i) - 1] if tokens[i].text in PAIRS else []
        braces = tokens[i].text == '{'
        end = closing(tokens, i) if body or tokens[i].text in PAIRS else i + 1
        if not braces and tokens[end - 1].text == ')':
            end += 1
        item = self.add('type', name, start, end, None)
        item.generics = generics
        if kind == 'enum':
            for part in split_at(body, ','):
                part = without_attributes(part)
                if part:
                    fields = part[2:-1] if len(part) > 1 else []
                    item.members[part[0].text] = fields_of(fields, len(part) > 1 and part[1].text == '{')
                    item.parts.append(('', part))
        else:
            item.members = fields_of(body, braces)
            for part in split_at(body, ','):
                part = without_attributes(part)
                name = part[1].text if part and part[0].text == 'ghost' else ''
                item.parts.append((name, part))
        return end

    def block(self, i):
        tokens = self.tokens
        start, context = i, Context()
        i += 1
        declares = tokens[start].text == 'trait'
        if declares:
            i += 1
        if tokens[i].text == '<':
            stop = angles(tokens, i)
            context.generics = generics_of(tokens[i + 1:stop - 1])
            i = stop
        head = i
        while tokens[i].text != '{':
            i += 1
        words = tokens[head:i]
        if declares:
            item = self.add('trait', tokens[start + 1].text, start, i + 1, None)
            item.supers = [named(part) for part in split_at(words[1:], '+')] if words else []
            context.owner, context.declares = item.name, item
            item.types = context.types
        else:
            cut = next((k for k, t in enumerate(words) if t.text == 'for'), None)
            context.trait = words[:cut] if cut is not None else None
            context.type = words[cut + 1:] if cut is not None else words
            context.owner = named(context.type)
        end = closing(tokens, i)
        if declares:
            item.last = tokens[end - 1].line
        else:
            name = 'the impl of ' + (f'{named(context.trait)} for ' if context.trait else '') + context.owner
            item = self.add('impl', name, start, end, None)
            item.owner_type, item.of_trait = context.type, context.trait
        self.items(i + 1, end - 1, context)
        return end

    def function(self, i, context, is_test):
        tokens, start = self.tokens, i
        name = tokens[i + 1].text
        i += 2
        generics = {}
        if tokens[i].text == '<':
            stop = angles(tokens, i)
            generics = generics_of(tokens[i + 1:stop - 1])
            i = stop
        stop = closing(tokens, i)
        params = []
        for part in split_at(tokens[i + 1:stop - 1], ','):
            colon = next((k for k, t in enumerate(part) if t.text == ':'), None)
            params.append((part, None) if colon is None else (part[:colon], part[colon + 1:]))
        i = stop
        result, clauses, body = None, [], None
        if tokens[i].text == '->':
            stop = i + 1
            while tokens[stop].text not in ('requires', 'ensures', 'where', 'decreases', '{', ';'):
                stop = closing(tokens, stop) if tokens[stop].text in PAIRS else stop + 1
            result, i = tokens[i + 1:stop], stop
        head = None
        while tokens[i].text not in ('{', ';'):
            if tokens[i].text in ('requires', 'ensures', 'decreases'):
                head = head or tokens[i - 1].line
                kind, line, label = tokens[i].text, tokens[i].line, ''
                i += 1
                if tokens[i].kind == 'id':
                    label = tokens[i].text
                    i += 1
                stop = closing(tokens, i)
                clauses.append((kind, label, line, tokens[i:stop]))
                i = stop
            else:
                i += 1
        end = i + 1
        if tokens[i].text == '{':
            end = closing(tokens, i)
            body = tokens[i:end]
        item = self.add('function', name, start, end, context)
        item.generics.update(generics)
        item.params, item.result, item.clauses, item.body, item.is_test = params, result, clauses, body, is_test
        item.head = head or tokens[i - 1].line
        item.types = context.types if context else {}
        return end


class Context:
    """The trait or the impl that items stand in."""

    def __init__(self):
        self.owner = self.type = self.trait = self.declares = None
        self.generics, self.scope, self.types = {}, {}, {}


def without_attributes(part):
    while part and part[0].text == '#':
        part = part[closing(part, 1):]
    while part and part[0].text == 'pub':
        part = part[closing(part, 1):] if part[1].text == '(' else part[1:]
    return part


def fields_of(tokens, braces):
    fields = {}
    for i, part in enumerate(split_at(tokens, ',')):
        part = without_attributes(part)
        if part and part[0].text == 'ghost':
            continue
        if part and braces:
            fields[part[0].text] = part[2:]
        elif part:
            fields[str(i)] = part
    return fields


def read_definitions(file):
    """Reads the items of a file of definitions. Each begins in the first column, or in that of the `module .. where` that it stands in:
    `abbrev pub f : ..` with the lines of f, `pub record` and `pub data` with what is indented below them."""
    starts, depths = [], [0]
    for i, line in enumerate(file.lines):
        depth = len(line) - len(line.lstrip())
        if not line.strip() or re.match(r' *--', line):
            continue
        while depths[-1] > depth:
            depths.pop()
        if depths[-1] == depth:
            starts.append(i)
            depths += [depth + 2] if line.startswith('module ', depth) else []
    item = None
    for at, start in enumerate(starts):
        stop = starts[at + 1] if at + 1 < len(starts) else len(file.lines)
        while stop > start + 1 and (not file.lines[stop - 1].strip() or re.match(r' *--', file.lines[stop - 1])):
            stop -= 1
        line = file.lines[start].lstrip()
        tokens = tokens_of('\n'.join(file.lines[start:stop]), GHOST_TOKEN, start + 1)
        if line.startswith(('use ', 'pub use ')):
            file.ghosts.update(use_paths(tokens[1 if line.startswith('use') else 2:]))
        elif item and re.match(r'(pub )?' + re.escape(item.name) + r"-prop(?![\w'-])", line):
            item.last = stop  # that it is a proposition is part of it
        elif re.match(r'(pub|unfoldable pub|abbrev) ', line) and not line.startswith('pub mod'):
            names = [t for t in tokens if t.text not in ('pub', 'unfoldable', 'abbrev', 'record', 'data')]
            item = Item('definition', names[0].text, file, start + 1, stop)
            item.first = file.first_line(start + 1)
            file.items.append(item)
            shape = 'record' if ' record ' in ' ' + line else 'data' if ' data ' in ' ' + line else ''
            read_parts(item, tokens[tokens.index(names[0]) + 1:], shape)
        elif item and tokens[0].text == item.name:
            item.last = stop
            read_parts(item, tokens[1:], 'equation')
        elif item and tokens[0].text in ('}', ')', ']'):
            item.last = stop
            read_parts(item, tokens, '')


def is_after_colon(tokens, i):
    """Whether a token stands in the type of a parameter, as `b` in `(a : b)`, or in that of the whole."""
    depth = 0
    while i > 0:
        i -= 1
        depth += {')': 1, '(': -1}.get(tokens[i].text, 0)
        if depth < 0:
            return False
        if depth == 0 and tokens[i].text == ':':
            return True
    return False


def read_parts(item, tokens, shape):
    """The parts of a definition in which names may stand: its head, the fields of a record, the cases of a data, an equation."""
    if shape == 'record':
        cuts = [i for i, t in enumerate(tokens) if t.text == 'pub']
        head = tokens[:cuts[0]] if cuts else tokens
        item.parts.append(('', head))
        bound = {t.text for i, t in enumerate(head) if t.kind == 'id' and not is_after_colon(head, i)}
        for cut, end in zip(cuts, cuts[1:] + [len(tokens)]):
            item.members[tokens[cut + 1].text] = None
            item.parts.append((tokens[cut + 1].text, [t for i, t in enumerate(tokens) if cut + 2 <= i < end and (t.text not in bound or tokens[i - 1].text == '.')]))
        return
    if shape == 'data':
        for i, token in enumerate(tokens):
            if i + 1 < len(tokens) and tokens[i + 1].text == ':' and token.text[:1].isupper() and (i == 0 or tokens[i - 1].line < token.line):
                item.members[token.text] = None
    if shape == 'equation':
        equals = next((i for i, t in enumerate(tokens) if t.text == '='), 0)
        bound = {t.text for t in tokens[:equals] if t.kind == 'id' and not t.text[0].isupper()}
        item.parts.append(('', [t for t in tokens[:equals] if t.text not in bound]))
        item.parts.append(('', [t for i, t in enumerate(tokens) if i > equals and (t.text not in bound or tokens[i - 1].text == '.')]))
        return
    item.parts.append(('', tokens))


def names_in(tokens):
    """The names that a piece of ghost text refers to: neither fields, nor labels, nor what it binds itself; with the name after a dot."""
    bound = set()
    for i, token in enumerate(tokens):
        text = token.text
        if text == 'λ':
            k = i + 1
            while k < len(tokens) and tokens[k].text not in ('.', '='):
                if tokens[k].kind == 'id':
                    bound.add(tokens[k].text)
                    if k + 1 < len(tokens) and tokens[k + 1].text == ':':
                        break
                k += 1
        elif text == 'let' and i + 1 < len(tokens):
            bound.add(tokens[i + 1].text)
        elif text == '(' and i + 1 < len(tokens) and tokens[i + 1].kind == 'id':
            k = i + 1
            while k < len(tokens) and tokens[k].kind == 'id':
                k += 1
            if k < len(tokens) and tokens[k].text == ':':
                bound.update(t.text for t in tokens[i + 1:k])
    for i, token in enumerate(tokens):
        if token.kind != 'id':
            continue
        before = tokens[i - 1] if i else None
        if before is not None and before.text == '.' and token.tight and before.tight:
            continue
        after = tokens[i + 1].text if i + 1 < len(tokens) else ''
        if after == '=' and before is not None and before.text in ('{', ';'):
            continue
        k = i
        path = [token.text]
        while k + 2 < len(tokens) and tokens[k + 1].text == '.' and tokens[k + 1].tight and tokens[k + 2].kind in ('id', 'num') and tokens[k + 2].tight:
            path.append(tokens[k + 2].text)
            k += 2
        if token.text in bound:
            continue
        yield token, path


# --- What names mean ------------------------------------------------------------------------------------------------------------

class Project:
    def __init__(self):
        self.below = {}
        for line in open('crates.txt', encoding='utf-8'):
            if line[:1].isalpha():
                crate, rest = line.split(':')
                self.below[crate.split()[0]] = rest.split()
        self.order = list(self.below)
        self.files = {}
        for path in self.paths():
            crate = path.split('/')[1]
            file = File(path, self.order.index(crate) if crate in self.order else len(self.order))
            self.files[path] = file
            read_definitions(file) if file.is_spec else Reader(file)
        self.items = [item for file in self.files.values() for item in file.items]
        self.test_calls = None  # of each function of the tests what it calls
        self.guessed = set()    # the calls of which the type does not tell what they mean
        self.called_on = {}  # of a method and an item that calls it: the types on which it does
        self.index()
        for item in self.items:
            self.ghost_names(item)
            if item.kind in ('function', 'type', 'const', 'alias'):
                Body(self, item).walk()
        self.of_types, self.proof_users, self.proofs_read = {}, None, None
        for item in self.items:
            self.to_trait(item)

    @staticmethod
    def paths():
        return sorted(glob.glob('crates/*/src/**/*.rt', recursive=True) + glob.glob('crates/*/specs/**/*.antt', recursive=True))

    def index(self):
        self.code, self.modules, self.specs, self.members = {}, {}, {}, {}
        self.traits, self.trait_members = {}, {}
        for file in self.files.values():
            if not file.is_spec:
                self.modules[file.crate, file.module] = file
            for item in file.items:
                if item.kind == 'definition':
                    self.specs[file.crate, file.module, item.name] = item
                    for member in item.members:
                        self.members.setdefault((file.crate, file.module, member), item)
                elif item.owner is None and item.kind != 'impl':
                    self.code.setdefault((file.crate, file.module, item.name), item)
                    if item.kind == 'trait':
                        self.traits[item.name] = item
        self.methods = {}
        for item in self.items:
            if item.kind == 'impl':
                item.owner_item = self.item_at(item.file, [named(item.owner_type)])
            if item.owner is None:
                continue
            owner = item.in_trait or self.item_at(item.file, [item.owner])
            item.owner_item = owner
            if item.in_trait and item.kind == 'ghost':
                self.trait_members.setdefault(item.name, []).append(item)
            if item.kind == 'function' or item.kind == 'const':
                self.methods.setdefault((owner or item.owner, item.name), []).append(item)
        self.by_name, self.free = {}, {}
        for item in self.items:
            if item.kind == 'function' and item.owner is None:
                self.free.setdefault(item.name, []).append(item)
        for (owner, name), items in self.methods.items():
            self.by_name.setdefault(name, []).extend(items)

    def at_or_below(self, crate):
        if crate not in self.below:
            return {crate}
        found, todo = {crate}, [crate]
        while todo:
            for name in self.below.get(todo.pop(), []):
                if name in self.below and name not in found:
                    found.add(name)
                    todo.append(name)
        return found

    def in_module(self, crate, module, name, depth=0):
        """The item that a name means in a module."""
        item = self.code.get((crate, module, name))
        if item is not None or depth > 8:
            return item
        file = self.modules.get((crate, module))
        if file is None:
            return None
        if name in file.uses:
            return self.item_at(file, file.uses[name], depth + 1)
        for path in file.globs:
            item = self.item_at(file, path + [name], depth + 1)
            if item is not None:
                return item
        return None

    def item_at(self, file, path, depth=0):
        """The item that a path means in a file of code; of a variant or a method the type."""
        if depth > 8 or not path:
            return None
        crate, module, i = file.crate, file.module, 0
        if path[0] == 'crate':
            module, i = (), 1
        elif path[0] in ('self', 'super'):
            module, i = (module if path[0] == 'self' else module[:-1]), 1
            while i < len(path) and path[i] == 'super':
                module, i = module[:-1], i + 1
        elif path[0] in self.below and len(path) > 1:
            crate, module, i = path[0], (), 1
        while i < len(path):
            if (crate, module + (path[i],)) in self.modules and (i + 1 < len(path)):
                module += (path[i],)
                i += 1
                continue
            if i == 0 and len(path) > 1 and path[0] in file.uses and file.uses[path[0]] != path[:1]:
                return self.item_at(file, file.uses[path[0]] + path[1:], depth + 1)
            return self.in_module(crate, module, path[i], depth + 1)
        return None

    def ghost_at(self, path):
        """The item that a path from Rattle means."""
        if len(path) < 4 or path[0] != 'Rattle' or path[1] not in self.below or path[2] != 'specs':
            return None
        crate, rest = path[1], tuple(path[3:])
        if rest[0] == 'declared':
            rest = rest[1:]
            for cut in range(len(rest)):
                for name in rest[cut:cut + 2]:
                    item = self.code.get((crate, rest[:cut], name))
                    if item is not None and item.kind in ('type', 'const', 'alias', 'trait'):
                        return item
            return None
        for cut in range(len(rest) - 1, 0, -1):
            for index in (self.specs, self.members):
                item = index.get((crate, rest[:cut], rest[cut]))
                if item is not None:
                    return item
            file = self.files.get(f'crates/{crate}/specs/{"/".join(rest[:cut])}.antt')
            if file is not None and rest[cut] in file.ghosts and file.ghosts[rest[cut]] != path:
                return self.ghost_at(file.ghosts[rest[cut]])
        return None

    def ghost_item(self, item, path):
        """The item that a name, with what stands behind dots after it, means in ghost text of an item."""
        name, file = path[0], item.file
        if file.is_spec:
            if name in item.members:
                return item
            own = self.specs.get((file.crate, file.module, name)) or self.members.get((file.crate, file.module, name))
            if own is not None:
                return own
        for scope in (item.scope, file.ghosts):
            if name in scope:
                return self.ghost_at(scope[name]) or (self.ghost_at(scope[name] + path[1:2]) if len(path) > 1 else None)
        if name in item.generics or name == 'Self':
            bounds = item.generics.get(name) or []
            for member in path[1:]:
                ghosts = self.trait_members.get(member, [])
                for ghost in [it for it in ghosts if it.in_trait is not None and it.in_trait.name in bounds] + ghosts:
                    return ghost
            return None
        if item.in_trait is not None:
            for ghost in self.trait_members.get(name, []):
                if ghost.in_trait is item.in_trait:
                    return ghost
        return None if file.is_spec else self.item_at(file, [name])

    def proofs(self):
        """What only proofs name: of a definition the functions whose proofs bring it in, and the files of lemmas that do; of these the
        functions whose proofs use a lemma of theirs."""
        if self.proof_users is not None:
            return self.proof_users
        self.proof_users, lemmas, uses = {}, {}, []
        for path in sorted(glob.glob('crates/*/proofs/**/*.antt', recursive=True)):
            parts = path[:-5].split('/')
            crate, names = parts[1], parts[3:]
            if names[-1] in ('Answers', 'Invariants'):
                users = [item for item in self.by_name.get(names[-2], []) + self.free.get(names[-2], [])
                         if item.file.crate == crate and (item.owner is None or item.owner in '/'.join(names[:-2]))]
            else:
                users = [Item('lemmas', 'lemmas of ' + names[-1], File(path, self.order.index(crate) if crate in self.order else 0), 1, 1)]
                lemmas[crate, tuple(names)] = users[0]
            uses.append((users, re.findall(r'^use (.*)', open(path, encoding='utf-8').read(), re.M)))
        for item in self.items:
            text = ' '.join(item.file.lines[item.first - 1:item.line]) if item.kind == 'function' else ''
            for crate, names in re.findall(r'using\((crate)::proofs::([\w:]*)', text):
                uses.append(([item], [f'Rattle.{item.file.crate}.proofs.{names.replace("::", ".")}']))
        for users, lines in uses:
            for line in lines:
                for path in use_paths(tokens_of(line, GHOST_TOKEN)).values():
                    target = self.ghost_at(path) or next((lemmas[path[1], tuple(path[3:cut])] for cut in range(len(path), 3, -1)
                                                          if path[2:3] == ['proofs'] and (path[1], tuple(path[3:cut])) in lemmas), None)
                    if target is not None:
                        self.proof_users.setdefault(target, []).extend(users)
        return self.proof_users

    def add(self, target, user, how, name, line):
        if target is not None and target is not user:
            target.users.setdefault(user, []).append((how, name, line))

    def ghost_names(self, item):
        pieces = [('field' if item.kind in ('definition', 'type') else 'ghost', name, tokens) for name, tokens in item.parts]
        pieces += [('clause', name, tokens) for kind, name, line, tokens in item.clauses]
        taken = {token.text for pattern, kind in item.params or () for token in pattern or () if token.kind == 'id'}
        for how, name, tokens in pieces:
            if how == 'field' and item.kind == 'type' and not name:
                continue
            for token, path in names_in(tokens):
                if how == 'clause' and path[:1] == [token.text] and token.text in taken:
                    continue  # what the function takes
                self.add(self.ghost_item(item, path), item, how, name, token.line)

    def to_trait(self, item):
        """What an impl has leads to the trait that asks for it; of a trait that stands in no crate of ours, to the type. So does what
        the tests have for a trait of a crate below them, since the program never calls it."""
        trait = self.item_at(item.file, [named(item.trait)]) if item.trait is not None else None
        if trait is not None and (is_of_tests(trait) or not is_of_tests(item)):
            for other in self.items:
                if other.in_trait is trait and other.name == item.name and other.kind == item.kind:
                    other.impls.append(item)
                    self.add(item, other, 'trait', '', other.line)
        elif item.owner_item is not None and item.kind in ('impl', 'ghost'):
            self.add(item, item.owner_item, 'type', '', item.owner_item.line)
        elif item.kind == 'impl' and item.of_trait:
            self.add(item, self.item_at(item.file, [named(item.of_trait)]), 'trait', '', item.line)
        elif item.owner_item is not None and item.trait is not None:
            self.of_types[item] = [item.owner_item]


# --- Bodies -----------------------------------------------------------------------------------------------------------------------

KEPT = {'as_slice', 'as_mut_slice', 'iter', 'iter_mut', 'into_iter', 'to_vec', 'rev', 'skip', 'take', 'filter', 'copied', 'cloned', 'clone',
        'as_ref', 'as_mut', 'as_deref', 'map_err', 'or', 'or_else', 'by_ref', 'chain', 'to_owned', 'borrow', 'peekable', 'skip_while',
        'take_while', 'step_by', 'inspect', 'min', 'max', 'saturating_sub', 'saturating_add', 'wrapping_add', 'abs_diff', 'drain', 'as_bytes'}
INNER = {'unwrap', 'expect', 'unwrap_or', 'unwrap_or_default', 'unwrap_or_else', 'map_or', 'swap'}
FIRST = {'get', 'get_mut', 'first', 'last', 'pop', 'next', 'find', 'first_mut', 'last_mut', 'peek', 'next_back', 'nth'}
TEXT = {'as_str', 'format', 'trim', 'to_string'}
TRUTH = {'is_ok', 'is_err', 'is_some', 'is_none', 'is_empty', 'contains', 'starts_with', 'ends_with', 'all', 'any'}
SEQUENCES = {'[]', 'Vec', 'Iter', 'IndexSet'}
BOOL, NUMBER = ('bool', []), ('number', [])
COMPARES = {'==', '!=', '<', '>', '<=', '>=', '&&', '||'}
BINARY = COMPARES | {'+', '-', '*', '/', '%', '&', '|', '^', '<<', '>>', '=', '+=', '-=', '*=', '/=', '%=', '&=', '|=', '^=', '..', '..='}


class Body:
    """Goes over a function's body for what it names, with the types of its expressions as far as they are told."""

    def __init__(self, project, item):
        self.project, self.item, self.file = project, item, item.file
        self.t, self.i, self.scopes = [], 0, [{}]
        self.generics = item.generics

    def walk(self):
        item = self.item
        if item.kind != 'function':
            for name, tokens in item.parts:
                if tokens and tokens[0].text != 'ghost':
                    self.mention(tokens)
            return
        for pattern, kind in item.params:
            if kind is None:
                self.scopes[0]['self'] = self.self_type()
            else:
                self.mention(kind)
                self.bind(pattern, self.type_of(kind))
        if item.result:
            self.mention(item.result)
        for bounds in item.generics.values():
            for name in bounds:
                if isinstance(name, str):
                    self.name(self.project.item_at(self.file, [name]), item.line)
        if item.body:
            self.t = item.body
            self.block()

    # Names.

    def name(self, target, line, how='names'):
        self.project.add(target, self.item, how, '', line)

    def mention(self, tokens):
        """The types and constants that tokens name."""
        for i, token in enumerate(tokens):
            if token.kind == 'id' and (i == 0 or tokens[i - 1].text not in ('.', '::')):
                path = [token.text]
                k = i
                while k + 2 < len(tokens) and tokens[k + 1].text == '::' and tokens[k + 2].kind == 'id':
                    path.append(tokens[k + 2].text)
                    k += 2
                if token.text not in self.generics and not (i + 1 < len(tokens) and tokens[i + 1].text == ':'):
                    self.name(self.project.item_at(self.file, path) or self.project.item_at(self.file, path[:1]), token.line)

    # Types: a pair of an item of ours, or the name of another type or a parameter, and its arguments.

    def self_type(self):
        if self.item.in_trait is not None:
            return ('Self', [])
        return self.type_of(self.item.owner_type) if self.item.owner_type else None

    def type_of(self, tokens, file=None, given=None, depth=0):
        file, given = file or self.file, given or {}
        tokens = [t for t in tokens if t.kind != 'life' and t.text not in ('&', 'mut', 'dyn', 'impl', '&&')]
        if not tokens or depth > 8:
            return None
        if tokens[0].text == '(':
            return ('()', [self.type_of(part, file, given, depth + 1) for part in split_at(tokens[1:-1], ',')])
        if tokens[0].text == '[':
            return ('[]', [self.type_of(split_at(tokens[1:-1], ';')[0], file, given, depth + 1)])
        path, args, i = [], [], 0
        while i < len(tokens):
            if tokens[i].kind == 'id':
                path.append(tokens[i].text)
            elif tokens[i].text == '<':
                stop = angles(tokens, i)
                args = [self.type_of(part, file, given, depth + 1) for part in split_at(tokens[i + 1:stop - 1], ',')]
                i = stop
                continue
            elif tokens[i].text != '::':
                break
            i += 1
        if not path:
            return None
        if path[0] == 'Self':
            if len(path) == 1:
                return given.get('Self') or self.self_type()
            kind, words = self.item.types.get(path[1], ('', None)) if hasattr(self.item, 'types') else ('', None)
            if kind == '=' and 'Self' not in given:
                return self.type_of(words, file, given, depth + 1)
            own = given.get('Self')
            return self.associated(own, path[1]) if own else ('Self::' + path[1], [])
        if path[0] in given and len(path) == 1:
            return given[path[0]]
        if path[0] in self.generics:
            if len(path) == 1:
                return (path[0], [])
            same = self.generics.get('::'.join(path[:2]))
            return self.type_of(same, file, given, depth + 1) if same else ('::'.join(path[:2]), [])
        item = self.project.item_at(file, path)
        if item is not None and item.kind == 'alias':
            more = dict(zip(item.generics, args))
            return self.type_of(item.result, item.file, more, depth + 1)
        return (item, args) if item is not None and item.kind in ('type', 'trait') else (path[-1], args)

    def associated(self, own, name):
        if own is None:
            return None
        if isinstance(own[0], str):
            same = self.generics.get(own[0] + '::' + name)
            return self.type_of(same) if same else (own[0] + '::' + name, [])
        for item in self.project.items:
            if item.trait is not None and getattr(item, 'owner_item', None) is own[0] and name in getattr(item, 'types', {}):
                return self.type_of(item.types[name][1], item.file)
        return None

    def bounds(self, head):
        """The traits of ours that bound a type parameter."""
        if head == 'Self' and self.item.in_trait is not None:
            found = [self.item.in_trait]
        elif '::' in head:
            base, name = head.split('::')
            found = []
            for trait in self.bounds(base):
                kind, words = getattr(trait, 'types', {}).get(name, ('', []))
                found += [self.project.traits.get(named(part)) for part in split_at(words, '+')]
        else:
            found = [self.project.traits.get(name) for name in self.generics.get(head, [])]
        return [trait for trait in found if trait is not None]

    def methods(self, kind, name):
        """The methods of a name that a value of a type may have; none where the type is not ours."""
        if kind is None:
            return None
        head = kind[0]
        if isinstance(head, str):
            return [m for trait in self.bounds(head) for m in self.project.methods.get((trait, name), [])]
        return self.project.methods.get((head, name), [])

    def given(self, kind):
        """What the parameters of a type stand for."""
        if kind is None or isinstance(kind[0], str):
            return {'Self': kind} if kind else {}
        found = dict(zip([name for name in kind[0].generics if '::' not in name], kind[1]))
        found['Self'] = kind
        return found

    def result_of(self, method, kind):
        if method.result is None:
            return ('()', [])
        given = self.given(kind)
        if method.in_trait is not None and 'Self' not in given:
            given['Self'] = kind
        saved = self.generics, self.item
        self.generics = {**{k: v for k, v in method.generics.items() if k not in given}, **self.generics}
        try:
            if method.types and method.trait is not None:
                self.item = method
                given.pop('Self', None)
            return self.type_of(method.result, method.file, given)
        finally:
            self.generics, self.item = saved

    def field(self, kind, name):
        if kind is None:
            return None
        if kind[0] == '()' and name.isdigit() and int(name) < len(kind[1]):
            return kind[1][int(name)]
        if isinstance(kind[0], str):
            return None
        tokens = kind[0].members.get(name)
        if tokens is None or isinstance(tokens, dict):
            return None
        saved = self.generics
        self.generics = {**kind[0].generics, **saved}
        try:
            return self.type_of(tokens, kind[0].file, {k: v for k, v in self.given(kind).items() if k != 'Self'})
        finally:
            self.generics = saved

    # Statements and expressions.

    def look(self, ahead=0):
        return self.t[self.i + ahead].text if self.i + ahead < len(self.t) else ''

    def eat(self, text):
        if self.look() == text:
            self.i += 1
            return True
        return False

    def find(self, name):
        for scope in reversed(self.scopes):
            if name in scope:
                return True, scope[name]
        return False, None

    def upto(self, *marks):
        """The tokens up to a top-level mark, which is left."""
        start = self.i
        while self.i < len(self.t) and self.look() not in marks:
            if self.look() in PAIRS:
                self.i = closing(self.t, self.i)
            elif self.look() == '<' and '=' in marks:
                self.i = angles(self.t, self.i)
            else:
                self.i += 1
        return self.t[start:self.i]

    def block(self):
        end = closing(self.t, self.i) - 1
        self.i += 1
        self.scopes.append({})
        last = ('()', [])
        while self.i < end:
            last = self.statement(end)
        self.i = end + 1
        self.scopes.pop()
        return last

    def statement(self, end):
        text, start = self.look(), self.i
        if text == '#':
            self.i = closing(self.t, self.i + 1)
            return None
        if self.t[self.i].kind == 'life':
            self.i += 2
            return None
        if text == ';':
            self.i += 1
            return ('()', [])
        if text in ('ghost', 'use'):
            words = self.upto(';')
            if text == 'ghost':
                for token, path in names_in(words):
                    self.name(self.project.ghost_item(self.item, path), token.line)
            return None
        if text == 'const':
            self.mention(self.upto(';'))
            return None
        if text == 'let':
            self.let()
            return ('()', [])
        found = self.expression()
        if self.i == start:
            self.i += 1
        if self.look() == ';' and self.i < end:
            self.i += 1
            return ('()', [])
        return found

    def let(self):
        self.i += 1
        pattern = self.upto('=', ':', ';')
        kind = None
        if self.eat(':'):
            words = self.upto('=', ';')
            self.mention(words)
            kind = self.type_of(words)
        if self.eat('='):
            found = self.expression()
            kind = kind or found
            if self.look() == 'else':
                self.i += 1
                self.block()
        self.bind(pattern, kind)
        self.eat(';')

    def condition(self):
        """The condition of an if or a while, which may bind names."""
        while True:
            if self.eat('let'):
                pattern = self.upto('=')
                self.i += 1
                self.bind(pattern, self.expression(plain=True, chain=False))
            else:
                self.expression(plain=True, chain=False)
            if not (self.eat('&&') or self.eat('||')):
                return

    def bind(self, tokens, kind):
        tokens = [t for t in tokens if t.text not in ('&', 'mut', 'ref', '&&') and t.kind != 'life']
        if not tokens:
            return
        options = split_at(tokens, '|')
        if len(options) > 1:
            for option in options:
                self.bind(option, kind)
            return
        first = tokens[0]
        if first.text == '(':
            for k, part in enumerate(split_at(tokens[1:-1], ',')):
                self.bind(part, kind[1][k] if kind and kind[0] == '()' and k < len(kind[1]) else None)
            return
        if first.text == '[':
            for part in split_at(tokens[1:-1], ','):
                self.bind(part, self.element(kind))
            return
        if first.kind != 'id' or first.text == '_':
            return
        if len(tokens) == 1 and (first.text[0].islower() or first.text[0] == '_'):
            self.scopes[-1][first.text] = kind
            return
        if len(tokens) > 2 and tokens[1].text == '@':
            self.scopes[-1][first.text] = kind
            self.bind(tokens[2:], kind)
            return
        path, i = [], 0
        while i < len(tokens) and (tokens[i].kind == 'id' or tokens[i].text == '::'):
            if tokens[i].kind == 'id':
                path.append(tokens[i].text)
            i += 1
        item = self.path_item(path, first.line)
        fields = self.fields(item, path, kind)
        if i >= len(tokens):
            return
        if tokens[i].text == '(':
            for k, part in enumerate(split_at(tokens[i + 1:-1], ',')):
                self.bind(part, fields.get(str(k)))
        elif tokens[i].text == '{':
            for part in split_at(tokens[i + 1:-1], ','):
                part = [t for t in part if t.text not in ('ref', 'mut')]
                if len(part) == 1 and part[0].kind == 'id':
                    self.scopes[-1][part[0].text] = fields.get(part[0].text)
                elif len(part) > 2:
                    self.bind(part[2:], fields.get(part[0].text))

    def fields(self, item, path, kind):
        """The types of what a pattern of a variant or a struct holds."""
        if path[-1] in ('Some', 'Ok') and kind and kind[1]:
            return {'0': kind[1][0]}
        if path[-1] == 'Err' and kind and len(kind[1]) > 1:
            return {'0': kind[1][1]}
        if item is None:
            return {}
        members = item.members.get(path[-1]) if isinstance(item.members.get(path[-1]), dict) else item.members
        if not isinstance(members, dict):
            return {}
        saved, given = self.generics, self.given(kind) if kind and kind[0] is item else {}
        self.generics = {**item.generics, **saved}
        found = {name: self.type_of(words, item.file, {k: v for k, v in given.items() if k != 'Self'})
                 for name, words in members.items() if isinstance(words, list)}
        self.generics = saved
        return found

    def path_item(self, path, line):
        """The type, constant or function that a path means."""
        if path[0] == 'Self':
            own = self.self_type()
            item = own[0] if own and not isinstance(own[0], str) else None
        elif path[0] in self.generics:
            item = None
        else:
            item = self.project.item_at(self.file, path) or (self.project.item_at(self.file, path[:-1]) if len(path) > 1 else None)
        if item is not None and item.kind == 'alias':
            self.name(item, line)
            target = self.type_of(item.result, item.file)
            item = target[0] if target and not isinstance(target[0], str) else item
        self.name(item, line)
        return item

    def element(self, kind):
        return kind[1][0] if kind and kind[1] and (kind[0] in SEQUENCES or kind[0] == 'Option') else None

    def expression(self, plain=False, chain=True):
        kind = self.unary(plain)
        while True:
            text = self.look()
            if text == 'as':
                self.i += 1
                kind = self.type_of(self.cast())
                continue
            if text not in BINARY or (text in ('&&', '||') and not chain) or (plain and text == '{'):
                return kind
            line = self.t[self.i].line
            self.i += 1
            if text in ('..', '..=') and self.look() in (')', ']', '}', ',', ';', '{', '=>', ''):
                kind = ('Range', [kind])
                continue
            right = self.unary(plain)
            if text in ('==', '!='):
                for method in self.methods(kind or right, 'eq') or []:
                    self.name(method, line, 'calls')
            if text in COMPARES:
                kind = BOOL
            elif text in ('..', '..='):
                kind = ('Iter', [kind or right])
            elif text == '=' or text.endswith('='):
                kind = ('()', [])
            else:
                kind = kind or right

    def cast(self):
        start = self.i
        while self.i < len(self.t) and (self.t[self.i].kind == 'id' or self.look() == '::'):
            self.i += 1
        return self.t[start:self.i]

    def unary(self, plain):
        while self.look() in ('&', '&&', '*', '-', '!', 'mut', 'move', 'ref'):
            self.i += 1
        text = self.look()
        if text in ('|', '||'):
            return self.closure([])
        if text in ('return', 'break', 'continue'):
            self.i += 1
            if self.i < len(self.t) and self.t[self.i].kind == 'life':
                self.i += 1
            if self.look() not in (';', '}', ',', ')', ''):
                self.expression(plain)
            return None
        if text in ('..', '..='):
            self.i += 1
            if self.look() not in (']', ')', ','):
                self.unary(plain)
            return ('Range', [NUMBER])
        return self.postfix(self.primary(plain), plain)

    def closure(self, kinds):
        self.scopes.append({})
        if not self.eat('||'):
            self.i += 1
            start = self.i
            while self.look() != '|':
                self.i = closing(self.t, self.i) if self.look() in PAIRS else self.i + 1
            for k, part in enumerate(split_at(self.t[start:self.i], ',')):
                colon = next((n for n, t in enumerate(part) if t.text == ':'), None)
                kind = kinds[k] if k < len(kinds) else None
                if colon is not None:
                    kind, part = self.type_of(part[colon + 1:]), part[:colon]
                self.bind(part, kind)
            self.i += 1
        kind = None
        if self.eat('->'):
            words = self.upto('requires', 'ensures', '{')
            kind = self.type_of(words)
        while self.look() in ('requires', 'ensures'):
            self.i += 1
            if self.look() != '{':
                self.i += 1
            stop = closing(self.t, self.i)
            for token, path in names_in(self.t[self.i:stop]):
                self.name(self.project.ghost_item(self.item, path), token.line)
            self.i = stop
        found = self.expression()
        self.scopes.pop()
        return kind or found

    def primary(self, plain):
        if self.i >= len(self.t):
            return None
        token, text = self.t[self.i], self.look()
        if token.kind in ('num', 'char'):
            self.i += 1
            return NUMBER
        if token.kind == 'str':
            self.i += 1
            return ('str', [])
        if token.kind == 'life':
            self.i += 2
            return self.primary(plain)
        if text == '(':
            kinds, many = self.several()
            return ('()', kinds) if many or not kinds else kinds[0]
        if text == '[':
            kinds, many = self.several()
            return ('[]', kinds[:1])
        if text == '{':
            return self.block()
        if text == 'unsafe':
            self.i += 1
            return self.block()
        if text == 'if':
            return self.branch()
        if text == 'match':
            return self.match()
        if text in ('while', 'loop', 'for'):
            return self.loop()
        if token.kind == 'id':
            return self.path(plain)
        return None

    def several(self):
        """Expressions between brackets, with commas or a semicolon."""
        end = closing(self.t, self.i) - 1
        self.i += 1
        kinds, many = [], False
        while self.i < end:
            start = self.i
            if self.look() in (',', ';'):
                many, self.i = True, self.i + 1
                continue
            kinds.append(self.expression())
            if self.i == start:
                self.i += 1
        self.i = end + 1
        return kinds, many

    def branch(self):
        self.i += 1
        self.scopes.append({})
        self.condition()
        kind = self.block() if self.look() == '{' else None
        self.scopes.pop()
        while self.eat('else'):
            other = self.branch() if self.look() == 'if' else self.block()
            kind = kind or other
        return kind

    def match(self):
        self.i += 1
        kind = self.expression(plain=True)
        end = closing(self.t, self.i) - 1
        self.i += 1
        result = None
        while self.i < end:
            start = self.i
            self.scopes.append({})
            if self.look() == '#':
                self.i = closing(self.t, self.i + 1)
            pattern = self.upto('=>', 'if')
            self.bind(pattern, kind)
            if self.eat('if'):
                self.condition()
            self.eat('=>')
            found = self.expression()
            result = result or (found if found != ('()', []) else None)
            self.scopes.pop()
            self.eat(',')
            if self.i == start:
                self.i += 1
        self.i = end + 1
        return result

    def loop(self):
        text = self.look()
        self.i += 1
        self.scopes.append({})
        if text == 'for':
            pattern = self.upto('in')
            self.i += 1
            self.bind(pattern, self.element(self.expression(plain=True)))
        elif text == 'while':
            self.condition()
        if self.look() == '{':
            self.block()
        self.scopes.pop()
        return ('()', [])

    def path(self, plain):
        token = self.t[self.i]
        path, args = [token.text], []
        self.i += 1
        while self.look() == '::' :
            self.i += 1
            if self.look() == '<':
                stop = angles(self.t, self.i)
                words = self.t[self.i + 1:stop - 1]
                self.mention(words)
                args = [self.type_of(part) for part in split_at(words, ',')]
                self.i = stop
            else:
                path.append(self.look())
                self.i += 1
        if self.look() == '!' and self.look(1) in ('(', '[', '{'):
            self.i += 1
            self.several()
            return None
        if len(path) == 1:
            there, kind = self.find(path[0])
            if there:
                return kind
        if self.look() == '{' and not plain and path[-1][:1].isupper():
            return self.literal(path, token.line)
        if self.look() == '(':
            return self.call(path, args, token.line)
        return self.value(path, token.line)

    def literal(self, path, line):
        item = self.path_item(path, line)
        end = closing(self.t, self.i) - 1
        self.i += 1
        while self.i < end:
            start = self.i
            if self.eat('..'):
                self.expression()
            elif self.t[self.i].kind in ('id', 'num') and self.look(1) == ':':
                self.i += 2
                self.expression()
            elif not self.eat(','):
                self.expression()
            if self.i == start:
                self.i += 1
        self.i = end + 1
        return self.own(item, path)

    def own(self, item, path):
        if item is None or item.kind != 'type':
            return None
        if path[0] == 'Self':
            return self.self_type()
        return (item, [(name, []) if name in self.generics else None for name in item.generics])

    def value(self, path, line):
        """A path that is not called: a constant, a variant, or a function that is handed on."""
        for method in self.static(path)[0]:
            self.name(method, line, 'names')
            if method.kind == 'const':
                return self.type_of(split_at(method.parts[0][1], '=')[0][1:], method.file)
            return None
        item = self.path_item(path, line)
        if item is None:
            return None
        if item.kind == 'const':
            return self.type_of(split_at(item.parts[0][1], '=')[0][1:], item.file)
        return self.own(item, path) if item.kind == 'type' else None

    def static(self, path):
        """The methods that a path through a type names, and that type."""
        if len(path) < 2:
            return [], None
        if path[0] == 'Self':
            kind = self.self_type()
        elif path[0] in self.generics:
            kind = (path[0], [])
            if len(path) > 2:
                kind = ('::'.join(path[:2]), [])
        else:
            item = self.project.item_at(self.file, path[:-1])
            if item is not None and item.kind == 'alias':
                kind = self.type_of(item.result, item.file)
            else:
                kind = (item, [None for _ in item.generics]) if item is not None and item.kind in ('type', 'trait') else None
        return (self.methods(kind, path[-1]) or []), kind

    def call(self, path, args, line):
        kinds = self.several()[0]
        methods, kind = self.static(path)
        if methods:
            for method in methods:
                self.name(method, line, 'calls')
            self.path_item(path, line)
            if kind and kind[1] and kinds and all(a is None for a in kind[1]):
                kind = (kind[0], [self.element(kinds[0]) for _ in kind[1]])
            return self.result_of(methods[0], kind)
        if path[-1] in ('Some', 'Ok', 'Err') and len(path) == 1:
            return ('Option', kinds) if path[-1] == 'Some' else ('Result', kinds if path[-1] == 'Ok' else [None] + kinds)
        item = self.path_item(path, line)
        if item is not None and item.kind == 'function':
            self.name(item, line, 'calls')
            given = {}
            names = [name for name in item.generics if '::' not in name]
            given.update({name: kind for name, kind in zip(names, args)})
            for (pattern, words), kind in zip(item.params, kinds):
                if words and len(named(words)) and named(words) in names and kind is not None:
                    given.setdefault(named(words), kind)
            if item.result is None:
                return ('()', [])
            saved = self.generics
            self.generics = {**{k: v for k, v in item.generics.items() if k not in given}, **saved}
            try:
                return self.type_of(item.result, item.file, given)
            finally:
                self.generics = saved
        if item is not None and item.kind == 'type':
            return self.own(item, path)
        if path[-1] in ('replace', 'take') and kinds:
            return kinds[0]
        if path[0] in ('Vec', 'Box', 'String') and path[-1] in ('new', 'with_capacity', 'from'):
            return (path[0], args)
        return None

    def postfix(self, kind, plain):
        while self.i < len(self.t):
            text = self.look()
            if text == '?':
                self.i += 1
                if kind and kind[0] in ('Result', 'Option'):
                    kind = kind[1][0] if kind[1] else None
            elif text == '.' and self.i + 1 < len(self.t):
                line, name = self.t[self.i + 1].line, self.look(1)
                self.i += 2
                args = []
                if self.look() == '::':
                    stop = angles(self.t, self.i + 1)
                    self.mention(self.t[self.i + 2:stop - 1])
                    args = [self.type_of(part) for part in split_at(self.t[self.i + 2:stop - 1], ',')]
                    self.i = stop
                kind = self.method(kind, name, line) if self.look() == '(' else self.dotted(kind, name)
            elif text == '[':
                at = self.several()[0]
                if kind and kind[0] in SEQUENCES:
                    kind = kind if at and at[0] and at[0][0] in ('Range', 'Iter') else self.element(kind)
            elif text == '(':
                self.several()
                kind = None
            else:
                return kind
        return kind

    def dotted(self, kind, name):
        if re.fullmatch(r'\d+\.\d+', name):
            for part in name.split('.'):
                kind = self.field(kind, part)
            return kind
        return self.field(kind, name)

    def method(self, kind, name, line):
        methods = self.methods(kind, name)
        if methods:
            self.several()
            for method in methods:
                self.name(method, line, 'calls')
                self.project.called_on.setdefault((method, self.item), []).append(kind)
            return self.result_of(methods[0], kind)
        if kind is None and name in self.project.by_name:
            kinds = self.arguments(None, name)
            visible = self.project.at_or_below(self.file.crate)
            candidates = [m for m in self.project.by_name[name] if m.file.crate in visible and len(m.params) == len(kinds) + 1]
            if candidates and os.environ.get('RESTS_GUESSES'):
                print(f'{self.file.path}:{line}: {name}: {[m.shown() for m in candidates]}', file=sys.stderr)
            for method in candidates:
                self.name(method, line, 'calls')
                self.project.guessed.add((method, self.item))
            if not candidates and name in TEXT:
                return ('str', [])
            return self.result_of(candidates[0], None) if len(candidates) == 1 else None
        return self.outside(kind, name)

    def arguments(self, kind, name):
        """The types of a call's arguments, of which closures take what the value holds."""
        end = closing(self.t, self.i) - 1
        self.i += 1
        inner, kinds = self.element(kind) if kind else None, []
        if kind and kind[0] in ('Option', 'Result') and kind[1]:
            inner = kind[1][-1] if name in ('map_err', 'unwrap_or_else', 'or_else') and kind[0] == 'Result' else kind[1][0]
        while self.i < end:
            start = self.i
            if self.look() == ',':
                self.i += 1
                continue
            while self.look() in ('&', 'mut', 'move'):
                self.i += 1
            kinds.append(self.closure([inner]) if self.look() in ('|', '||') else self.expression())
            if self.i == start:
                self.i += 1
        self.i = end + 1
        return kinds

    def outside(self, kind, name):
        """A method of a type that is not ours."""
        kinds = self.arguments(kind, name)
        if name in TRUTH:
            return BOOL
        if name in TEXT:
            return ('str', [])
        if kind is None:
            return None
        inner = kind[1][0] if kind[1] else None
        if name in ('map', 'and_then', 'filter_map') and kinds:
            found = kinds[-1]
            if name == 'and_then' or (name == 'filter_map'):
                return found if name == 'and_then' else ('Iter', found[1] if found else [None])
            return (kind[0] if kind[0] in ('Option', 'Result') else 'Iter', [found] + kind[1][1:])
        if name == 'enumerate':
            return ('Iter', [('()', [NUMBER, inner])])
        if name == 'zip':
            return ('Iter', [('()', [inner, self.element(kinds[0]) if kinds else None])])
        if name in ('split_at', 'split_at_mut'):
            return ('()', [kind, kind])
        if name in ('split_first', 'split_last', 'split_first_mut', 'split_last_mut'):
            return ('Option', [('()', [inner, kind])])
        if name in ('chunks', 'windows', 'chunks_exact'):
            return ('Iter', [kind])
        if name in ('ok_or', 'ok_or_else'):
            return ('Result', [inner] + kinds)
        if name == 'ok':
            return ('Option', kind[1][:1])
        if name == 'err':
            return ('Option', kind[1][1:2])
        if name in FIRST and kind[0] in SEQUENCES:
            return kind if name.startswith('get') and kinds and kinds[0] and kinds[0][0] == 'Range' else ('Option', [inner])
        if name in INNER:
            return inner
        if name in KEPT:
            return kind
        if name in ('push', 'reserve'):
            return ('Result', [('()', []), ('AllocError', [])])
        return None


def is_of_tests(item):
    return item.file.crate.endswith('_tests') or 'tests' in item.file.module or item.file.crate == 'pgn_rows'


# --- What files bring in -------------------------------------------------------------------------------------------------------


def brings(file, tokens):
    """The places of each `use` and `mod` among the tokens of a file: where it begins, its word, and where it ends."""
    found, i = [], 0
    while i < len(tokens):
        text = tokens[i].text
        if file.is_spec:
            is_one = text in ('use', 'mod') and (not i or tokens[i - 1].line < tokens[i].line or tokens[i - 1].text == 'pub')
            is_one = is_one and not file.lines[tokens[i].line - 1][0].isspace()
        else:
            is_one = text in ('use', 'mod') and (not i or tokens[i - 1].text in (';', '{', '}', ']', ')', 'pub', 'ghost'))
        if not is_one:
            i += 1
            continue
        start, end = i, i + 1
        while start and tokens[start - 1].line == tokens[i].line and tokens[start - 1].text not in (';', '{', '}', ']'):
            start -= 1
        while end < len(tokens) and (tokens[end].text != ';' if not file.is_spec else file.lines[tokens[end].line - 1][0].isspace() or tokens[end].line == tokens[i].line):
            end += 1
        found.append((start, i, end))
        i = end
    return found


def brought_by(tokens, prefix=()):
    """The names that the words of a `use` bring in, each with its line and its path."""
    found, part, depth = [], [], 0
    for token in tokens + [None]:
        if token is not None and (depth or token.text != ','):
            depth += {'{': 1, '}': -1}.get(token.text, 0)
            part.append(token)
            continue
        brace = next((i for i, t in enumerate(part) if t.text == '{'), None)
        cut = next((i for i, t in enumerate(part) if t.text == 'as'), len(part))
        path = [t.text for t in part[:cut if brace is None else brace] if t.text not in ('.', '::')]
        if brace is not None:
            found += brought_by(part[brace + 1:-1], (*prefix, *path))
        elif part:
            last = max((i for i, t in enumerate(part[:cut]) if t.text in ('.', '::')), default=-1)
            name = ''.join(t.text for t in part[last + 1:cut])
            path = [*prefix, *[t.text for t in part[:last + 1] if t.text not in ('.', '::')], name]
            path = path[:-1] if name == 'self' else path
            found.append((part[cut + 1].text if cut < len(part) else path[-1], part[0].line, path))
        part = []
    return found


def ghost_places(file, tokens):
    """The places of the tokens of a file that stand in ghost text."""
    if file.is_spec:
        return set(range(len(tokens)))
    places = set()
    for i, token in enumerate(tokens):
        if token.text in ('requires', 'ensures', 'decreases') or token.text == 'ghost' and tokens[i + 1].text != 'use' \
                or token.text == 'by' and tokens[i - 1].text == '}':
            start = next((k for k in range(i + 1, min(i + 4, len(tokens))) if tokens[k].text == '{'), None)
            if start is not None:
                places.update(range(start, closing(tokens, start)))
    return places


# --- Proofs ------------------------------------------------------------------------------------------------------------------------

HEAD = re.compile(r" *(?:(?:pub|unfoldable|abbrev) )*(?:(record|data|ruleset) )?([^\W\d][\w'-]*)(?= |$)")


class ProofFile(File):
    """A file of lemmas, or of the answers to what the check asks of one function."""

    def __init__(self, path, order):
        super().__init__(path, order)
        self.is_spec, self.members, self.named = True, {}, None
        self.has_answers = self.module[-1] in ('Answers', 'Invariants')
        starts, depths, item, self.over = [], [0], None, {}
        for i, line in enumerate(self.lines):
            depth = len(line) - len(line.lstrip())
            if not line.strip() or re.match(r' *--', line):
                continue
            while depths[-1] > depth:
                depths.pop()
            if depths[-1] == depth:
                starts.append(i)
                depths += [depth + 2] if line.startswith('module ', depth) else []  # what stands in a module
        for start, stop in zip(starts, starts[1:] + [len(self.lines)]):
            while stop > start + 1 and (not self.lines[stop - 1].strip() or re.match(r' *--', self.lines[stop - 1])):
                stop -= 1
            item = self.read(item, tokens_of('\n'.join(self.lines[start:stop]), GHOST_TOKEN, start + 1), start + 1, stop)

    def read(self, item, tokens, line, last):
        """Reads what begins in the first column of a line: the item that it belongs to."""
        head = HEAD.match(self.lines[line - 1])
        if re.match(r'(pub )?(use|mod) ', self.lines[line - 1]):
            if 'use' in (tokens[0].text, tokens[1].text):
                self.ghosts.update(use_paths(tokens[1 if tokens[0].text == 'use' else 2:]))
            return item
        depth = len(self.lines[line - 1]) - len(self.lines[line - 1].lstrip())
        if tokens[0].text == 'module':
            module = Item('module', 'what a module is over', self, line, line)
            module.parts.append(('statement', tokens[2:]))
            module.inner = []
            self.items.append(module)
            if depth:
                self.over[depth].inner.append(module)
            self.over[depth + 2] = module
            return None
        at = next((i + 1 for i, token in enumerate(tokens) if head and token.text == head.group(2)), 0)
        if head and (head.group(1) or tokens[at].text == ':'):
            is_answer = self.has_answers and [token.text for token in tokens[at:at + 2]] == [':', 'goal']
            item = Item('answer' if is_answer else 'lemma', head.group(2), self, line, last)
            item.first = self.first_line(line)
            item.parts.append(('proof' if head.group(1) == 'ruleset' else 'statement', tokens[at:]))
            self.items.append(item)
            self.members[item.name] = item
            if depth:
                self.over[depth].inner.append(item)
            if head.group(1) == 'data':
                self.members.update((token.text, item) for token in tokens[at:] if token.text[0].isupper() and self.lines[token.line - 1].strip().startswith(token.text + ' :'))
        elif item is not None:
            equals = next((i for i, token in enumerate(tokens) if token.text == '='), -1) if head and head.group(2) == item.name else -1
            bound = {token.text for token in tokens[:equals + 1] if token.kind == 'id' and not token.text[0].isupper()}
            item.parts.append(('proof', [token for i, token in enumerate(tokens) if i > equals and (token.text not in bound or tokens[i - 1].text == '.')]))
            item.last = last
        return item


class Proofs:
    """The lemmas and answers of all crates. A file is read where it is asked for."""

    def __init__(self, project):
        self.project = project
        self.texts = {path: open(path, encoding='utf-8').read() for path in sorted(glob.glob('crates/*/proofs/**/*.antt', recursive=True))}
        self.files, self.above, self.given = {}, {}, None

    def file(self, path):
        if path not in self.files and path in self.texts:
            crate = path.split('/')[1]
            self.files[path] = ProofFile(path, self.project.order.index(crate) if crate in self.project.order else 0)
        return self.files.get(path)

    def at(self, path):
        """The lemma or the definition that a path from Rattle means."""
        if path[2:3] != ['proofs']:
            return self.project.ghost_at(path)
        for cut in range(len(path), 3, -1):
            file = self.file(f'crates/{path[1]}/proofs/{"/".join(path[3:cut])}.antt')
            if file is not None and cut < len(path):
                name = path[cut]
                return file.members.get(name) or (self.at(file.ghosts[name]) if name in file.ghosts and file.ghosts[name] != path else None)
        return None

    def meant(self, file, path):
        """What a name, with what stands behind dots after it, means in a file of proofs."""
        if path[0] in file.members:
            return file.members[path[0]]
        if path[0] not in file.ghosts:
            return None
        whole = file.ghosts[path[0]]
        return self.at(whole) or (self.at(whole + path[1:2]) if len(path) > 1 else None)

    def named_in(self, file):
        """What the items of a file name: for each the items that do, how, and in which line."""
        if file.named is None:
            file.named = {}
            for item in file.items:
                for how, tokens in item.parts:
                    for token, path in names_in(tokens):
                        target = self.meant(file, path)
                        if target is not None and target is not item:
                            file.named.setdefault(target, []).append((item, how, token.line))
        return file.named

    def users(self, item):
        """The lemmas, answers and functions whose proofs cite an item: each with how, and in which line."""
        crate, found = item.file.crate, []
        if item.kind == 'module':
            return [(inner, 'statement', inner.line) for inner in item.inner]
        if crate not in self.above:
            self.above[crate] = [path for path in self.texts if crate in self.project.at_or_below(path.split('/')[1])]
        for path in self.above[crate]:
            if item.name in self.texts[path]:
                found += self.named_in(self.file(path)).get(item, [])
        return found + [(function, 'using', line) for function, line in self.using().get((crate, *item.file.module, item.name), [])]

    def using(self):
        """The functions that are given lemmas by an attribute: for each lemma, by its path, them and the line of the attribute."""
        if self.given is None:
            self.given = {}
            for file in self.project.files.values():
                for number, line in enumerate(file.lines if not file.is_spec else [], 1):
                    for crate, path in re.findall(r'\b(\w+)::proofs::([\w:]+)', line) if '[tactic(' in line else []:
                        functions = [item for item in file.items if item.kind == 'function' and (line.startswith('#!') or item.first <= number <= item.line)]
                        key = file.crate if crate == 'crate' else crate, *path.split('::')
                        self.given.setdefault(key, []).extend((function, number) for function in functions)
        return self.given

    def functions(self, file, answer=None):
        """The functions that a file of answers, or one of its answers, is about."""
        name = file.module[-2]
        if name.startswith('+'):  # functions that call each other
            found = [item for item in self.project.items if item.kind == 'function' and item.file.crate == file.crate and self.cycle(item) == name]
            if found:
                return [item for item in found if answer is None or answer.name.startswith(item.name + '-')] or found
        name = name.lstrip('+')
        return [item for item in self.project.free.get(name, []) + self.project.by_name.get(name, [])
                if item.file.crate == file.crate and not item.in_trait and file.module[:-1] in self.folders(item)]

    def cycle(self, function):
        """The folder of the functions that call each other, of which this is one."""
        lines = function.file.lines[function.first - 1:function.line]
        return next(('+' + name for line in lines for name in re.findall(r'#\[cycle\((\w+)\)\]', line)), None)

    def folders(self, function):
        """Where the answers for a function may stand: by its file, or by that of its type."""
        words = ''.join('Unit' if token.text == '(' else token.text for token in function.trait or []
                        if token.text == '(' or token.kind == 'id' and token.text not in function.generics)
        owner = (function.owner + words,) if function.owner else ()
        modules = [function.file.module] + ([function.owner_item.file.module] if function.owner_item is not None else [])
        last = [self.cycle(function)] if self.cycle(function) else [function.name, '+' + function.name]  # which calls itself
        return [(*module, *owner, name) for module in modules for name in last]

    def answers(self, function):
        """The answers that were written for a function."""
        found = []
        for names in dict.fromkeys(self.folders(function)):
            for end in ('Answers', 'Invariants'):
                file = self.file(f'crates/{function.file.crate}/proofs/{"/".join(names)}/{end}.antt')
                found += [item for item in file.items if item.kind == 'answer' and function in self.functions(file, item)] if file is not None else []
        return found


def text_of(item):
    return '\n'.join(item.file.lines[item.line - 1:item.last])


def cites(answer):
    """The clauses of called functions that an answer cites: for each the call, or the case that its result is in, the clause's name, and where."""
    return [(found.group(1), found.group(2) or '', found.start()) for found in re.finditer(r'\bc\.([\w-]+)\.ensures(?:\.(\w+))?', text_of(answer))]


LOOP_KEEPS = re.compile(r'\bc\.(?!self\b)([\w-]+)\.invariant(?:\.(\w+))?')


def cites_kept(answer, kept):
    """Where an answer cites what loops keep, of which parts are given, by label and number."""
    return [found.start() for found in LOOP_KEEPS.finditer(text_of(answer))
            if any(label in (None, found.group(1)) and (part is None or found.group(2) in (None, str(part)) or not found.group(2).isdigit()) for label, part in kept)]


def part_at(text, at):
    """The number of the part of the tuple with which a text ends in which a place is; none where it is in no part."""
    depth, commas, last = 0, [], len(text.rstrip()) - 1
    for i in range(last, -1, -1) if text[last] == ')' else ():
        depth += {')': 1, '(': -1}.get(text[i], 0)
        commas += [i] if depth == 1 and text[i] == ',' else []
        if depth == 0:
            return sum(comma < at for comma in commas) if i < at and commas and re.search(r'(=|\bin)\s*$', text[:i]) else None
    return None


def kept_on(answers, is_on):
    """What loops keep that rests on what their answers cite, itself or by what loops keep: labels, with the numbers of parts, as far as they are
    told. `is_on` gives the places of the citations in an answer."""
    loops = [answer for answer in answers if goal_of(answer)[0] == 'loop']
    labels = {found.group(1) for answer in answers for found in LOOP_KEEPS.finditer(text_of(answer))} if loops else set()
    kept = set()
    while True:
        before = len(kept)
        for answer in loops:
            label = re.sub(r'-(preserved|init)\b.*', '', answer.name)
            kept |= {(label if label in labels else None, part_at(text_of(answer), at)) for at in is_on(answer) + cites_kept(answer, kept)}
        if len(kept) == before:
            return kept


def is_refuted(answer):
    """Whether an answer says only that its clause does not ask anything in this case."""
    # its equation, and not a field of a record in it
    return re.search(r'(?m)^\s*(pub )?' + re.escape(answer.name) + r'(?![\w\'-])[^=:]*=\s+(λ [^.]*\.\s+)?absurd\b', text_of(answer)) is not None


def goal_of(answer):
    """What an answer is to: `ensures` of its function, `requires` of one that this calls, or `loop` or `fact`, with the name of the clause or
    ''."""
    name = answer.name.split('-clause-')
    kind = 'requires' if re.search(r'-requires(-\d+)?$', name[0]) else 'ensures' if re.search(r'^returns|^\w+-returns', name[0]) \
        else 'loop' if re.match(r'(loop|invariant-|invariant$|decreases)|.*-(init|preserved)', name[0]) else 'fact'
    return kind, re.match(r'\w+', name[1]).group() if len(name) > 1 else ''


# --- What was read before ----------------------------------------------------------------------------------------------------------

KEPT_AT = 'out/sources'  # what the last call has read


def stamp():
    """What tells whether a file has changed since."""
    paths = ['crates.txt', __file__, *Project.paths()]
    return sys.version, [(path, os.stat(path).st_mtime_ns, os.stat(path).st_size) for path in paths]


class Keeper(pickle.Pickler):
    """Writes what was read, with a number for each item and each file, so that nothing is nested."""

    def __init__(self, out, numbers):
        super().__init__(out, protocol=5)
        self.numbers = numbers

    def persistent_id(self, thing):
        return self.numbers.get(id(thing)) if isinstance(thing, (Item, File)) else None


class Finder(pickle.Unpickler):
    def __init__(self, source, things):
        super().__init__(source)
        self.persistent_load = things.__getitem__


def read_project():
    """The project. Where no file has changed, it is what the last call has read."""
    if os.environ.get('RESTS_GUESSES'):  # it prints what reading guesses
        return Project()
    now = stamp()
    try:
        with open(KEPT_AT, 'rb') as source:
            if pickle.load(source) == now:
                return found_project(source)
    except (OSError, EOFError, pickle.UnpicklingError, AttributeError):
        pass
    project = Project()
    keep_project(project, now)
    return project


def found_project(source):
    gc.disable()  # nothing of it is let go
    count, count_files = pickle.load(source)
    things = [Item.__new__(Item) for _ in range(count)] + [File.__new__(File) for _ in range(count_files)]
    for thing, fields in zip(things, Finder(source, things).load()):
        thing.__dict__.update(fields)
    project = Project.__new__(Project)
    project.__dict__.update(Finder(source, things).load())
    return project


def keep_project(project, now):
    """Keeps the project for the next call, without what only reading needs."""
    files = list(project.files.values())
    numbers = {id(thing): number for number, thing in enumerate(project.items + files)}
    fields = [{**item.__dict__, 'body': None, 'params': None, 'parts': [(name, None) for name, _ in item.parts]} for item in project.items]
    try:
        os.makedirs(os.path.dirname(KEPT_AT), exist_ok=True)
        with tempfile.NamedTemporaryFile(dir=os.path.dirname(KEPT_AT), delete=False) as out:
            pickle.dump(now, out)
            pickle.dump((len(project.items), len(files)), out)
            for part in (fields + [file.__dict__ for file in files], project.__dict__):
                Keeper(out, numbers).dump(part)
        os.replace(out.name, KEPT_AT)
    except OSError:
        pass  # then the next call reads again

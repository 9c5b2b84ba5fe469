"""Makes the charts of docs/CHARTS.md by themselves, from that text and docs/FORMATS.md alone, to check conc_chart:

  charts.py timeline|csv|json [HISTORY] [--plan FILE] [--script FILE]
  charts.py svg-check PICTURE [HISTORY] [--plan FILE] [--script FILE]

The first line prints what conc_chart has to print, and has its exits. svg-check reads a picture of conc_chart svg, tells
on standard error each thing in it that is not as it should be, and ends with 1 where there is one. It goes by these
attributes: class="bar" with data-request and data-lane on the <rect> of each run in the lanes, and class="row" with
data-request on the <g> of each row of the table.
"""
import csv
import datetime
import io
import json
import os
import re
import sys
import unicodedata
import xml.etree.ElementTree as xml

COLUMNS = 48
LEFT, SPAN = 260, 780    # where the events of a picture begin, and over how many units they lie
HEAD = 'request,program,set,phase,status,place,do,let,start,end,waited,ran,offset,length'
STATUSES = {
    'Pending': ['Normal', 'Standby', 'Scheduled', 'Waiting'],
    'Running': ['Normal', 'Paused', 'Terminating'],
    'Completed': ['Normal', 'Warning', 'Error', 'Cancelled', 'Terminated'],
    'Inactive': ['On Hold', 'Disabled', 'No Manager'],
}


class Fault(Exception):
    """What the line of exit 1 tells behind the program's name."""

    def __init__(self, name, line, why):
        super().__init__(f'{name}: line {line}: {why}' if line else f'{name}: {why}')


# ---- words: each function gives what a word says, or raises ValueError

def decimal(word, below=2 ** 64):
    if not re.fullmatch('0|[1-9][0-9]*', word) or int(word) >= below:
        raise ValueError(word)
    return int(word)


def small(word):
    return decimal(word, 2 ** 32)


def stage(word):
    if small(word) == 0:
        raise ValueError(word)
    return small(word)


def place(word):
    manager, number = word.split('.')
    if not (1 <= decimal(manager) <= 64 and 1 <= decimal(number) <= 64):
        raise ValueError(word)
    return word


def moment(word):
    if not re.fullmatch('[0-9]{4}-[0-9]{2}-[0-9]{2}T[0-9]{2}:[0-9]{2}:[0-9]{2}', word):
        raise ValueError(word)
    return datetime.datetime(*[int(digits) for digits in re.split('[-T:]', word)])


def moment_word(word):
    moment(word)
    return word


def one_of(*words):
    def known(word):
        if word not in words:
            raise ValueError(word)
        return word
    return known


def name(word):
    if not 1 <= len(word.encode()) <= 80 or any(ord(c) < 32 or ord(c) == 127 for c in word):
        raise ValueError(word)
    return word


REPORTED = one_of('Normal', 'Warning', 'Error')
EVENTS = {
    ('tick', 1): [('moment', moment_word)],
    ('do', 1): [('command', small)],
    ('open', 1): [('request', small)],
    ('stage', 2): [('request', small), ('stage', stage)],
    ('close', 2): [('request', small), ('outcome', REPORTED)],
    ('let', 1): [('request', small)],
    ('start', 2): [('request', small), ('place', place)],
    ('end', 4): [('request', small), ('outcome', REPORTED), ('offset', decimal), ('length', small)],
    ('end', 2): [('request', small), ('outcome', one_of('Terminated'))],
    ('resume', 0): [],
    ('interrupt', 1): [('request', small)],
}


def event_of(number, line):
    """The event of a line, with its keys in the order of the form json."""
    what, *words = line.decode().split(' ')
    if (what, len(words)) not in EVENTS:
        raise ValueError(line)
    event = {'event': number, 'what': what}
    for (key, read), word in zip(EVENTS[what, len(words)], words):
        event[key] = read(word)
    if event.get('outcome') == 'Terminated':
        event.update(offset=None, length=None)
    return event


def row_of(line):
    """Number, phase, status and name of a line of the table."""
    number, phase, rest = line.decode().split(' ', 2)
    for status in STATUSES.get(phase, []):
        if rest.startswith(status + ' '):
            return small(number), phase, status, name(rest[len(status) + 1:])
    raise ValueError(line)


# ---- files

def read_file(file):
    try:
        if file == '-':
            return sys.stdin.buffer.read()
        with open(file, 'rb') as opened:
            return opened.read()
    except OSError:
        raise Fault(file, 0, 'cannot be read')


def lines_of(data):
    """The lines that end with LF, and whether all bytes belong to one: bytes behind the last LF are no line."""
    *lines, rest = data.split(b'\n')
    return lines, not rest


class History:
    """The events from 1, the moment of each, the rows by number, and the runs."""

    def __init__(self, file):
        lines, whole = lines_of(read_file(file))
        self.events, self.rows, self.runs = [], {}, []
        for number, line in enumerate(lines, 1):
            if line == b'--':
                break
            try:
                self.events.append(event_of(number, line))
            except ValueError:
                raise Fault(file, number, 'no event line')
        else:
            raise Fault(file, len(lines) + 1, 'no event line')
        self.read_table(file, lines)
        if not whole:
            raise Fault(file, len(lines) + 1, 'no line of the table')
        self.find_runs(file)
        self.moments, self.by_request, last = [], {}, None
        for event in self.events:
            if event['what'] == 'tick':
                last = moment(event['moment'])
            self.moments.append(last)
            self.by_request.setdefault(event.get('request'), []).append(event)

    def read_table(self, file, lines):
        last, watched = 0, False
        for number, line in enumerate(lines[len(self.events) + 1:], len(self.events) + 2):
            if line.startswith(b'watch '):
                watched = True
                continue
            try:
                row = row_of(line)
            except ValueError:
                row = (0,)
            if watched or row[0] <= last:
                raise Fault(file, number, 'no line of the table')
            last = row[0]
            self.rows[last] = row

    def find_runs(self, file):
        """A run is [request, place, number of the start, number of the end or None]."""
        running, taken = {}, {}
        for event in self.events:
            number, what, request = event['event'], event['what'], event.get('request')
            if request is not None and request not in self.rows:
                raise Fault(file, number, 'no such request')
            if what == 'start':
                if request in running:
                    raise Fault(file, number, 'the request runs already')
                if event['place'] in taken:
                    raise Fault(file, number, 'the place is taken')
                run = [request, event['place'], number, None]
                running[request] = taken[event['place']] = run
                self.runs.append(run)
            if what in ('end', 'interrupt'):
                if request not in running:
                    raise Fault(file, number, 'the request does not run')
                run = running.pop(request)
                del taken[run[1]]
                run[3] = number

    def of(self, request, *whats):
        """The numbers of the events of these kinds that are about the request."""
        return [e['event'] for e in self.by_request.get(request, []) if e['what'] in whats]

    def moment_text(self, number):
        at = number and self.moments[number - 1]
        return at and at.isoformat()

    def seconds(self, first, second):
        """From the one event to the other; None where one of them, or its moment, is not there."""
        moments = [number and self.moments[number - 1] for number in (first, second)]
        if None in moments:
            return None
        return max(0, int((moments[1] - moments[0]).total_seconds()))

    def places(self):
        return sorted({run[1] for run in self.runs}, key=lambda word: [int(n) for n in word.split('.')])


def first_behind(numbers, number):
    """The first of these numbers of events that is behind this one, if there is one."""
    return None if number is None else next((n for n in numbers if n > number), None)


def read_plan(file):
    """For each request of the listing the number of its set's request, or None."""
    sets = {}
    lines, whole = lines_of(read_file(file))
    for number, line in enumerate(lines if whole else lines + [b''], 1):
        try:
            first, priority, start, parent, in_stage, domain, user, item = line.decode().split('\t')
            moment(start)
            for text in (domain, user, item):
                name(text)
            right = small(first) == number and 1 <= decimal(priority) <= 99 and (small(parent) == 0) == (small(in_stage) == 0)
        except ValueError:
            right = False
        if not right:
            raise Fault(file, number, 'no line of the plan')
        sets[number] = int(parent) or None
    return sets


def read_script(file):
    """The numbers of the commands that are a submit."""
    text = read_file(file).decode('utf-8-sig', 'surrogateescape')
    csv.field_size_limit(2 ** 27)
    number, submits = 0, []
    try:
        for record in csv.reader(io.StringIO(text, newline='')):
            if record:
                number += 1
                if number > 1 and len(record) < 2:
                    raise csv.Error
                if number > 1 and record[1] == 'submit':
                    submits.append(number - 1)
    except csv.Error:
        raise Fault(file, number, 'no record of the script')
    return submits


def commands_of(sets, submits):
    """For each request of the plan the number of the command that entered it, where the script has so many."""
    heads = dict(zip([request for request in sets if sets[request] is None], submits))
    return {request: heads.get(sets[request] or request) for request in sets}


# ---- what a chart tells of a request

def told(history, sets, commands):
    """The rows as the form json has them."""
    done = {}
    for event in history.events:
        if event['what'] == 'do':
            done.setdefault(event['command'], event['event'])
    for request, phase, status, program in history.rows.values():
        if history.of(request, 'open'):
            let, start, end = history.of(request, 'open'), history.of(request, 'stage'), history.of(request, 'close')
        else:
            let, start, end = history.of(request, 'let'), history.of(request, 'start'), history.of(request, 'end', 'interrupt')
        let = let[-1] if let else None
        start = first_behind(start, let)
        end = first_behind(end, start)
        yield {
            'request': request, 'program': program, 'set': sets.get(request), 'phase': phase, 'status': status,
            'place': start and history.events[start - 1].get('place'),
            'do': history.moment_text(done.get(commands.get(request))),
            'let': history.moment_text(let), 'start': history.moment_text(start), 'end': history.moment_text(end),
            'waited': history.seconds(let, start), 'ran': history.seconds(start, end),
            'offset': end and history.events[end - 1].get('offset'),
            'length': end and history.events[end - 1].get('length'),
        }


def as_csv(history, sets, commands):
    yield HEAD
    for row in told(history, sets, commands):
        fields = ['' if row[key] is None else str(row[key]) for key in HEAD.split(',')]
        yield ','.join('"' + f.replace('"', '""') + '"' if ',' in f or '"' in f else f for f in fields)


def as_json(history, sets, commands):
    for line in history.events + list(told(history, sets, commands)):
        yield json.dumps(line, ensure_ascii=False, separators=(',', ':'))


# ---- timeline

def width(character):
    if unicodedata.category(character).startswith('M'):
        return 0
    return 2 if unicodedata.east_asian_width(character) in 'WF' else 1


def fitted(text, columns):
    """The text, cut or filled up with blanks to so many columns."""
    kept, used = '', 0
    for character in text:
        if used + width(character) > columns:
            break
        kept += character
        used += width(character)
    return kept + ' ' * (columns - used)


def place_lines(history, at):
    line, empty = at.ljust(7), True
    for event in history.events:
        if event['what'] == 'tick':
            word = '|'
        elif event['what'] == 'start' and event['place'] == at:
            word = str(event['request'])
        else:
            continue
        if not empty and len(line) + 1 + len(word) > 100:
            yield line
            line, empty = ' ' * 7, True
        line += word if empty else ' ' + word
        empty = False
    yield line


def drawn(history, request):
    """The 48 columns of a row, as a list of characters."""
    def column(number):
        return COLUMNS - 1 if number is None else (number - 1) * COLUMNS // len(history.events)

    cells = [' '] * COLUMNS
    waits = [(let, first_behind(history.of(request, 'start'), let)) for let in history.of(request, 'let')]
    runs = [(run[2], run[3]) for run in history.runs if run[0] == request]
    runs += [(o, first_behind(history.of(request, 'close'), o)) for o in history.of(request, 'open')]
    for character, stretches in (('.', waits), ('=', runs)):
        for first, last in stretches:
            for c in range(column(first), column(last) + 1):
                cells[c] = character
    for number in history.of(request, 'end', 'interrupt', 'close'):
        cells[column(number)] = history.events[number - 1].get('outcome', '!')[0]
    return cells


def as_timeline(history, colours):
    for at in history.places():
        yield from place_lines(history, at)
    yield ''
    ruler = ['-'] * COLUMNS
    for event in history.events:
        if event['what'] == 'tick':
            ruler[(event['event'] - 1) * COLUMNS // len(history.events)] = '|'
    yield ' ' * 29 + ''.join(ruler)
    codes = {'E': 31, 'T': 31, '!': 31, 'W': 33, 'N': 32} if colours else {}
    for request, phase, status, program in history.rows.values():
        cells = [f'\033[{codes[c]}m{c}\033[0m' if c in codes else c for c in drawn(history, request)]
        label = f'{request:5} '
        yield label + fitted(program, 28 - len(label)) + f' {"".join(cells)} {phase} {status}'


# ---- svg-check

def tag(element):
    return element.tag.split('}')[-1] if isinstance(element.tag, str) else ''


def texts_of(element, *tags):
    return [' '.join(''.join(e.itertext()).split()) for e in element.iter() if tag(e) in tags]


def number_of(element, key):
    """A number of an attribute, which may have the unit px; 0 where there is none."""
    return float(element.get(key, '0').replace('px', ''))


def outside(root, text):
    """What the picture takes from outside, or runs."""
    for word in ('<!DOCTYPE', '<!ENTITY', '<?xml-stylesheet', '@import', '@font-face', 'javascript:'):
        if word.lower() in text.lower():
            yield f'{word} stands in it'
    if re.search(r'url\(\s*["\']?\s*[^#\s"\']', text):
        yield 'a url() leads out of it'
    for element in root.iter():
        if tag(element) in ('script', 'foreignObject', 'image', 'iframe', 'object', 'embed', 'link'):
            yield f'it has an element {tag(element)}'
        for key, value in element.attrib.items():
            key = key.split('}')[-1]
            if key.lower().startswith('on'):
                yield f'an element {tag(element)} has the attribute {key}'
            if key in ('href', 'src') and not value.startswith('#'):
                yield f'an element {tag(element)} leads to {value}'


def lane_faults(history, root, height):
    """Each run has a bar at its place in time, in its lane, and no bar else is there; bars do not overlap."""
    def left(number):
        return LEFT + (SPAN if number is None else 100 * SPAN * (number - 1) // len(history.events) / 100)

    bars = [e for e in root.iter() if 'bar' in e.get('class', '').split() and e.get('data-lane') is not None]
    lanes, of_place, missing = {}, {}, list(history.runs)
    for bar in bars:
        x, wide, y, high = [number_of(bar, key) for key in ('x', 'width', 'y', 'height')]
        what = f'the bar of request {bar.get("data-request")} in lane {bar.get("data-lane")} at {x}'
        if tag(bar) != 'rect':
            yield f'{what} is no rect'
        if x < 0 or wide < 0 or y < 0 or high <= 0 or x + wide > 1200.001 or y + high > height + 0.001:
            yield f'{what} does not lie in the picture'
        run = next((r for r in missing if str(r[0]) == bar.get('data-request') and abs(left(r[2]) - x) < 0.015), None)
        if run is None:
            yield f'{what} is that of no run'
            continue
        missing.remove(run)
        if abs(left(run[3]) - x - wide) > 0.025:
            yield f'{what} ends at {x + wide}, not at {left(run[3])}'
        if of_place.setdefault(run[1], bar.get('data-lane')) != bar.get('data-lane'):
            yield f'{what} stands in another lane than the bars before it at {run[1]}'
        lanes.setdefault(bar.get('data-lane'), []).append((x, x + wide, y, high, what))
        title = ' '.join(texts_of(bar, 'title'))
        wanted = [str(run[0]), ' '.join(history.rows[run[0]][3].split())]
        wanted += [m for m in (history.moment_text(run[2]), history.moment_text(run[3])) if m]
        for word in wanted:
            if word not in title:
                yield f'{what} has no {word} in its title'
    for run in missing:
        yield f'the run of request {run[0]} at {run[1]}, event {run[2]}, has no bar'
    if len(set(of_place.values())) != len(of_place):
        yield 'two places have one lane'
    heights = []
    for lane, its in lanes.items():
        its.sort()
        for before, behind in zip(its, its[1:]):
            if before[1] > behind[0] + 0.015:
                yield f'{behind[4]} begins before the one before it ends'
        if len({(y, high) for _, _, y, high, _ in its}) != 1:
            yield f'the bars of lane {lane} do not stand at one height'
        heights.append((its[0][2], its[0][2] + its[0][3], lane))
    heights.sort()
    for before, behind in zip(heights, heights[1:]):
        if before[1] > behind[0] + 0.001:
            yield f'the lanes {before[2]} and {behind[2]} lie over each other'
    if [lane for _, _, lane in heights] != [of_place.get(p) for p in history.places()]:
        yield 'the lanes do not stand in the order of manager and place'


def row_faults(history, root):
    """Each line of the table has a row, in this order, with number, name, phase and status; a name may be cut before a …."""
    rows = [e for e in root.iter() if 'row' in e.get('class', '').split() and e.get('data-request') is not None]
    if [e.get('data-request') for e in rows] != [str(request) for request in history.rows]:
        yield f'the rows are those of {[e.get("data-request") for e in rows]}, not of {list(history.rows)}'
        return
    for element, (request, phase, status, program) in zip(rows, history.rows.values()):
        if tag(element) != 'g':
            yield f'the row of request {request} is no g'
        text = ' '.join(texts_of(element, 'text'))
        label = re.match(r'(\d+) (.*?)( ?…)? ' + f'{phase} {status}$', text)
        if not label or label.group(1) != str(request):
            yield f'the row of request {request} says: {text}'
            continue
        whole, shown = ' '.join(program.split()), label.group(2)
        if shown != whole and not (label.group(3) and shown and whole.startswith(shown)):
            yield f'the row of request {request} has the name {shown}, not {whole}'


def picture_faults(history, picture):
    data = read_file(picture)
    try:
        text = data.decode()
        root = xml.fromstring(data)
    except (ValueError, xml.ParseError) as fault:
        yield f'it is not well-formed: {fault}'
        return
    if root.tag != '{http://www.w3.org/2000/svg}svg':
        yield f'its root is {root.tag}'
    yield from outside(root, text)
    box = [float(n) for n in re.split('[ ,]+', root.get('viewBox', '0 0 0 0').strip())]
    wide, height = (box[2], box[3]) if root.get('viewBox') else (number_of(root, 'width'), number_of(root, 'height'))
    if wide != 1200:
        yield f'it is {wide} units wide'
    if 'prefers-color-scheme' not in text and 'light-dark(' not in text:
        yield 'its colours do not go by the viewer\'s scheme'
    yield from lane_faults(history, root, height)
    yield from row_faults(history, root)
    readings = [e['moment'] for e in history.events if e['what'] == 'tick']
    shown = ' '.join(texts_of(root, 'text'))
    for at in readings[:1] + readings[-1:]:
        if at not in shown:
            yield f'the reading {at} does not stand in it'
    lines = [e for e in root.iter() if tag(e) in ('line', 'path', 'rect', 'g') and e.get('data-request') is None]
    titles = [''.join(title.itertext()) for e in lines for title in e if tag(title) == 'title']
    for at in sorted(set(readings)):
        if len([title for title in titles if at in title]) < readings.count(at):
            yield f'a reading {at} has no line with its title'


# ---- the words

def words_of(words):
    """Form, the other words and the options, or None where the words are no command."""
    if not words or words[0] not in ('timeline', 'csv', 'json', 'svg-check'):
        return None
    files, options, rest = [], {}, words[1:]
    while rest:
        word = rest.pop(0)
        key, equals, value = word.partition('=')
        if key in ('--plan', '--script'):
            if key in options or not (equals or rest):
                return None
            options[key] = value if equals else rest.pop(0)
        elif word.startswith('-') and word != '-':
            return None
        else:
            files.append(word)
    pictures = 1 if words[0] == 'svg-check' else 0
    if not pictures <= len(files) <= pictures + 1:
        return None
    return words[0], files, options


def main(words):
    said = words_of(words)
    if not said:
        print('usage: charts.py timeline|csv|json|svg-check ..', file=sys.stderr)
        return 2
    form, files, options = said
    picture = files.pop(0) if form == 'svg-check' else None
    try:
        history = History(files[0] if files else '-')
        sets = read_plan(options['--plan']) if '--plan' in options else {}
        submits = read_script(options['--script']) if '--script' in options else []
        faults = list(picture_faults(history, picture)) if picture else []
    except Fault as fault:
        print(f'conc_chart: {fault}', file=sys.stderr)
        return 1
    if picture:
        for fault in faults:
            print(f'{picture}: {fault}', file=sys.stderr)
        return 1 if faults else 0
    commands = commands_of(sets, submits)
    if form == 'csv':
        lines = as_csv(history, sets, commands)
    elif form == 'json':
        lines = as_json(history, sets, commands)
    else:
        lines = as_timeline(history, sys.stdout.isatty() and not os.environ.get('NO_COLOR'))
    try:
        sys.stdout.buffer.write(''.join(line + '\n' for line in lines).encode())
        sys.stdout.buffer.flush()
    except OSError:
        os._exit(3)
    return 0


if __name__ == '__main__':
    sys.exit(main(sys.argv[1:]))

"""The explanation of a report."""
import re

from explaining import pages, told
from explaining.texts import visible

MOST_ALIKE = 8


class Asked:
    """What is known beside a report: the program, its words and status, and why standard output can't be written."""

    def __init__(self, program=None, words=None, status=None, cannot_write=None):
        self.program, self.words, self.status, self.cannot_write = program, words, status, cannot_write


def lines_of(report):
    """The lines of a report; a fault is one line, also where a name in it holds a newline."""
    lines = report.split('\n')
    if not report.startswith('fault '):
        return [line for line in lines if line]
    ends = [at for at in range(1, len(lines)) if re.fullmatch(r'status \d+', lines[at])]
    return ['\n'.join(lines[:ends[-1]])] if ends else lines[:1]


def explained(report, asked):
    """The lines that explain a report."""
    if asked.status in (4, 6):
        return nothing_written(asked)
    if not report:
        return ['br: the report is empty: the program showed nothing, or ended with status 4 or 6']
    rows, said, alike, found = pages.rows(), set(), {}, []
    for line in lines_of(report):
        row, names = row_of(rows, line)
        if row is None or row.words[0] not in told.TOLD and row.words[0] != 'fault':
            continue
        alike[row.form] = alike.get(row.form, 0) + 1
        if alike[row.form] <= MOST_ALIKE:
            found += of_line(line, row, names, asked, said)
        elif alike[row.form] == MOST_ALIKE + 1:
            found.append('br: and more lines `%s ..`' % row.words[0])
    return found or ['br: there is nothing to explain']


def row_of(rows, line):
    """The row that a line has the form of, and what it tells; None if there is no such row."""
    for row in rows:
        names = row.match(line)
        if names is not None:
            return row, names
    return None, None


def of_line(line, row, names, asked, said):
    """The explanation of one line: what was found, and once for lines alike what they mean and what to do."""
    tell = told.FAULTS.get(row.words[1]) if row.words[0] == 'fault' else told.TOLD[row.words[0]]
    facts = facts_of(tell, names, asked) if tell else []
    means, to_do = row.means, row.to_do
    if row.words[0] == 'failed':
        means, to_do = pages.reasons().get(names['REASON'], (means, to_do))
    sentences = []
    if (means, to_do) not in said:
        said.add((means, to_do))
        sentences = ['It means: ' + pages.filled(means, names), 'To do: ' + pages.filled(to_do, names)]
    return ['br: ' + visible(line)] + ['    ' + visible(text) for text in facts + sentences]


def facts_of(tell, names, asked):
    """What is found for a line; nothing if the line or the files are other than a report of them can have them."""
    try:
        return tell(names, asked)
    except (OSError, ValueError, LookupError, RecursionError):
        return []


def nothing_written(asked):
    """What a status says for which there is no report."""
    row = next(row for row in pages.rows() if row.form.startswith('no line') and str(asked.status) in row.statuses)
    facts = told.sinks(asked) if asked.status == 6 else []
    return ['br: status %d' % asked.status] + ['    ' + visible(text) for text in
                                               facts + ['It means: ' + row.means, 'To do: ' + row.to_do]]

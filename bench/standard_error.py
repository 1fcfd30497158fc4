"""What standard error may say: the forms that the table of docs/RUNBOOK.md has ("What standard error says"), read from there, and what fits none of them."""
import os, re

RUNBOOK = os.path.join(os.path.dirname(os.path.abspath(__file__)), '..', 'docs', 'RUNBOOK.md')

# What the system says of a fault: its words and their number, or the words for a fault that has no number.
CAUSE = r"(?:[A-Z][\w ,/'-]* \(os error \d+\)|timed out|connection timed out|out of memory|already locked|failed to lookup address information: [\w ,/'-]+)"

# What stands in a line for a word of the table.
WORDS = {
    'ROOT': '0x[0-9a-f]{64}', 'HOST': r'[0-9A-Za-z.-]+', 'PORT': r'\d{1,5}', 'URL': r'http://[0-9A-Za-z.-]+:\d{1,5}', 'VERSION': r'[ -~]{1,200}', 'FILE': r'/[!-~]+', 'PATH': r'/[!-~]+\.[ab]',
    'CAUSE': CAUSE, 'CALL': r'(?:GET|POST|DELETE) /[!-~]*', 'TARGET': r'/[^? ]*', 'STATUS': r'\d{3}', 'BODY': r'[ -~]{0,200}', 'MESSAGE': r'[ -~]+',
    'KEY': r'(?:0x[0-9a-f]{96}|a key that cannot be read)', 'X.Y': r'\d+\.\d', '..': r'[ -~]+', **{letter: r'\d+' for letter in 'NMKDSRQ'},
}
# What became of a key, and what a call of the Keymanager API is, which is reported without its query.
OUTCOME = '%s: (?:imported|duplicate|error|deleted|not_active|not_found)(?:: %s)?' % (WORDS['KEY'], WORDS['MESSAGE'])
CALLED = '(?:GET|POST|DELETE) ' + WORDS['TARGET']

def pattern_of(form):
    """What lines have this form of the table."""
    parts = re.split(r'(\b(?:KEY: STATUS: MESSAGE|X\.Y|%s|[NMKDSRQ])\b|\.\.$)' % '|'.join(word for word in WORDS if len(word) > 3 or word == 'URL'), form)
    words = {**WORDS, 'KEY: STATUS: MESSAGE': OUTCOME, **({'CALL': CALLED} if form.startswith(('Keymanager API', 'Signing API')) else {})}
    return re.compile(''.join(words[part] if part in words else re.escape(part) for part in parts))

def table():
    """The forms of the table, each with whether lines of it are news."""
    with open(RUNBOOK, encoding='utf-8') as file:
        after = file.read().split('**What standard error says**')[1]
    rows = re.findall(r'^\| (`.*?) \| ', after.split('\n\n')[1], re.M)
    return [(form, pattern_of(form), cell.endswith('*')) for cell in rows for form in re.findall('`([^`]+)`', cell)]

FORMS = table()
if len(FORMS) != 30:
    raise SystemExit('bench: the table of docs/RUNBOOK.md has %d forms of lines: look at standard_error.py' % len(FORMS))

# What sentences next to the table say: what is also reported with `--quiet`: a key that ended with `error`, and a request that was refused, of
# whatever method.
REFUSED = re.compile(r'(?:Keymanager API: %s: error(?:: %s)?|(?:Keymanager|Signing) API: [ ->@-~]+: [345]\d\d(?: %s)?)' % (WORDS['KEY'], WORDS['MESSAGE'], WORDS['BODY']))

def unfit(lines, quiet=False):
    """The lines of which the table has no form, and, where the program is to be quiet, those that are news."""
    return [line for line in lines if not REFUSED.fullmatch(line) and not any(pattern.fullmatch(line) and not (quiet and is_news) for _, pattern, is_news in FORMS)]

def amiss(lines, wanted, what='standard error'):
    """What is wrong with lines each of which has to fit one of these patterns, the first that it fits, and that many of them each: the least number and the
    most, None where there is no most."""
    counts, wrong = [0] * len(wanted), []
    for line in lines:
        at = next((at for at, (pattern, _, _) in enumerate(wanted) if re.fullmatch(pattern, line)), None)
        if at is None:
            wrong.append('%s has: %s' % (what, line))
        else:
            counts[at] += 1
    for count, (pattern, least, most) in zip(counts, wanted):
        if count < least or (most is not None and count > most):
            wrong.append('%s has %d lines in place of %s: %s' % (what, count, least if least == most else '%d to %s' % (least, 'any number' if most is None else most), pattern))
    return wrong

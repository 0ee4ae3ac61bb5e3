"""The largest cut of a netlist, asked of the program by bounds."""
import re
import subprocess

MOST = 262144
REFUSED = re.compile(rb'fault 03: .* has ([0-9]+) terms, bound [0-9]+\n')


def over(program, words, bound):
    """The terms of the first cut that has more than this bound; None where none has."""
    done = subprocess.run([program, 'bits', *words, '--terms', str(bound)], capture_output=True)
    told = REFUSED.fullmatch(done.stdout)
    if done.returncode == 0 or told and done.returncode == 3:
        return int(told[1]) if told else None
    raise SystemExit('bits %s: status %d, %r' % (' '.join(words), done.returncode, done.stdout[:200]))


def largest_cut(program, words):
    """How many terms the largest cut has; None where these are more than any bound."""
    least, most = 1, MOST
    if over(program, words, MOST):
        return None
    while least < most:
        middle = (least + most) // 2
        found = over(program, words, middle)
        least, most = (max(found, middle + 1), most) if found else (least, middle)
    return least


def shown(cut):
    return 'over {:,}'.format(MOST) if cut is None else '{:,}'.format(cut)

"""What the scripts ask of the program, and of the plain reading in `reference` where the program does not know a command."""
import os
import subprocess

from reference.answers import answer


def ask(program, folder, words, files):
    """The status and the text that a call answers; the files are texts by name."""
    for name, text in files.items():
        with open(os.path.join(folder, name), 'w') as f:
            f.write(text)
    if program:
        done = subprocess.run([program] + words, cwd=folder, capture_output=True, text=True)
        if done.stdout != 'fault 01: words\n':
            return done.returncode, done.stdout
    return answer(words, {name: text.encode() for name, text in files.items()})


def nets(letter, k):
    return ' '.join('%s%d' % (letter, i) for i in range(k))


def words_of(k, basis, role='input', unary=False):
    """The lines of words A and B of a role, or of A alone, and of the output word Z, all in one basis."""
    roles = [('A', role), ('B', role), ('Z', 'output')]
    return ''.join('word %s %s %s %s\n' % (w, r, basis, nets(w.lower(), k)) for w, r in roles if not unary or w != 'B')

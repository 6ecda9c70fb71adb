"""backend.py ANSWERS OTHER..: compares the answers to scripts with those of others, script by script, and says how many
differ. Run by tests/backend."""
import sys


def scripts_of(path):  # the answers to each script, which begin with its name; the last ones with the closing line
    with open(path, 'rb') as file:
        scripts = (b'\n' + file.read()).split(b'\nscript ')
    if scripts[0] or len(scripts) < 2 or not scripts[-1].endswith(b'\nend\n'):
        sys.exit(f'backend: {path} has no answers, or not all')
    return scripts[1:]


right = scripts_of(sys.argv[1])
wrong = set()
for path in sys.argv[2:]:
    others = scripts_of(path)
    if len(others) != len(right):
        sys.exit(f'backend: {path} answers {len(others)} scripts, and {sys.argv[1]} {len(right)}')
    different = [number for number, pair in enumerate(zip(right, others)) if pair[0] != pair[1]]
    for number in different[:10]:
        print(f'backend: {path} differs in script {number}, {right[number].splitlines()[0].decode()}')
    wrong.update(different)
print(f'backend: {len(right)} scripts, {len(wrong)} differ')
sys.exit(1 if wrong else 0)

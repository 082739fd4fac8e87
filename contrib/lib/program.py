"""The program, as contrib/lib/program.sh has it: found, taken from release/, or proved and built."""
import os
import subprocess

ROOT = os.path.dirname(os.path.dirname(os.path.dirname(os.path.realpath(__file__))))
FIND = 'root=$0 teller=$1 refused=1 && . "$root/contrib/lib/program.sh" && find_product && echo "$product"'


def find_program(teller):
    """Its path; `teller` speaks on the standard error meanwhile."""
    command = ["bash", "-c", FIND, ROOT, teller]
    done = subprocess.run(command, stdin=subprocess.DEVNULL, stdout=subprocess.PIPE, text=True, check=True)
    return done.stdout.strip()

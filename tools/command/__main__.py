"""python3 tools/command TYPED [WORD..]: does what a person's words ask for. TYPED is how the program was called.

python3 tools/command --refused STATUS TYPED [WORD..]: tells of a refusal. The launcher calls both.
"""
import os
import sys

sys.dont_write_bytecode = True
sys.path[0] = os.path.dirname(os.path.dirname(os.path.realpath(__file__)))
from command.main import main  # noqa: E402 (its folder is on the path only now)

sys.exit(main(sys.argv[1:]))

"""Makes a certificate of the plan on standard input, and writes the plan and the certificate behind it, as the checking program reads them."""
import sys

import fikzarn

plan = sys.stdin.buffer.read()
made = fikzarn.certify(plan)
if made.answer.case != fikzarn.Case.GRADE:
    sys.exit(str(made.answer))
sys.stdout.buffer.write(plan + made.record)

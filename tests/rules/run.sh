#!/bin/sh
# Shows that for every rule of the specification there is an example that a wrong rule fails. `wrong-rules.txt` lists wrong rules, each a change of
# one line of the plain model of the figures, `model.py`; the examples are P1 to P11, and R1, K1 and S1 on, read out of `Examples.antt`,
# `RuleExamples.antt` and `TallyExamples.antt` of `crates/definitions/specs`, and T1 on, the rows of `PressExamples.antt`; there they are proved of the
# definitions. For each wrong rule it prints the examples that the changed model fails, and it fails where there is none. First the model as it stands
# gives the answer of every example, the oracle answers what each example says, and of two thousand random short texts, with a pad trace each, the model
# gives what the oracle answers. The last line is 'N passed, M failed': examples, texts and wrong rules.
set -eu
cd "$(dirname "$0")/../.."
. tests/need.sh
need "the model is written in it" python3
if [ ! -x target/oracle/oracle ]; then sh tests/oracle/build.sh; fi
PYTHONDONTWRITEBYTECODE=1 exec python3 tests/rules/run.py

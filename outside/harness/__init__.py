"""Campaigns of the user's own program: the commands `outside/loop` and `outside/new`.

command.py reads the arguments. campaign.py asks which scenarios are to be tried (paklour.py), lets an engine try them, and records the answers
(answers.py). script.py is the engine for a script of the user. whole.py is the engine for a harness (definition.py, settings.py): workers.py has
threads that decide scenarios, deciding.py makes a run for a scenario or derives its result from another run (records.py, scenario.py), run.py makes
a run in a folder of work.py with the programs of programs.py, and judging.py judges what is left (tree.py, served.py, step.py). room.py limits what
runs may take (bounds.py, disk.py). telling.py and watching.py print results for a person, and guess.py says what may be wrong. appendix.py adds to the
page, and to JUnit's XML, what only the loop knows: the program (under_test.py), and for each finding a story (story.py) with the files before and after
it (compared.py). shard.py divides a campaign among machines. processes.py ends all that was started. making.py writes a harness, which trial.py tries
(ready.py)."""

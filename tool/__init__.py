"""The tool that people meet: it builds and runs the program, and reads what it writes.

cli finds the command that is called; verbs has a file for each command, and their table. Below are

- files, processes, trouble: what is read and written, children, and what can go wrong
- kit, build, trial, run: the kit, the program, proved or not, and what is shown of its report
- crates, release: the crates and the digest of their sources, and the files of a release
- compiled, releasing: what the kit compiles, and a release of it
- manual, installing: manual pages and completions, and where an install puts what
- toml_reader: the reader of TOML, in each Python
- packets, commands, pasted, explain, decode: flits, and their fields in words
- case, script, schedule, texts: a reader of cases that gives all faults, the program's one first
- places, nearest, explain_fault: where a fault is in the file, and what it means
- lines, final, report, opening, fit: the lines of reports as records, their reader, and whether a
  file is a report, and fits a case
- jsonl, diff, subjects: reports as JSON, and where two differ
- following, queues, tokens, gathering, retries, journeys, rounds: where each packet is after a line
- wave, vcd, stats: waves, and numbers for plots
- view, spool, page: a page of a run; the folder page has its script and its style
- show, routes: pictures of networks, and ways through them
- observed, convert, documents: from a bench's log to a case
- samples, shrink, rewrites: random cases, small ones that fail, and schedules written otherwise
- traces, trace_formats, trace_case, trace_values: loads and stores, those of other tools, a case
  around them, and what the loads give
- gate: what .ci/run needs
- definitions, promises, counts, durations, quotes: which definitions a promise rests on, and what
  documents count and quote
- mutants: definitions with one value changed

What cases may have is in few places: the ranges at the top of case, STEPS of schedule, and LINES of
report. The gate compares this reader with the program and with the tables of faulty inputs, so a
limit that moves in one of them shows there.
"""

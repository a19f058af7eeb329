#!/usr/bin/env python3
"""Keeps the examples in the guides true to the cases, which the gate runs.

    tools/guides.py --check    fails with messages if an example of a guide isn't one of the cases

In a guide these indented blocks are examples: a list of users; a policy, by which all examples up to the next policy
are answered; and blocks with `ask CLIENT 'METHOD TARGET' 'BODY'`, `scimd check ..` or `scimd explain ..`, each with the
lines that it prints.
"""
import json
import re
import shlex
import sys
from pathlib import Path

ROOT = Path(__file__).resolve().parent.parent
DATA = ROOT / "crates" / "cases" / "data"
# Each guide, with the files of its cases.
GUIDES = {
    "POLICIES.md": ["requests_policies.json", "policies.jsonl"],
    "CONNECTORS.md": ["requests_entra.json", "requests_okta.json", "requests_hr.json"],
}

def cases_of(name):
    """The cases of a file, each with its policy as JSON. In a `.jsonl` file the policy is a text."""
    text = (DATA / name).read_text()
    if name.endswith(".json"):
        return json.loads(text)
    cases = [json.loads(line) for line in text.splitlines() if line.startswith("{")]
    return [case | {"policy": json.loads(case["policy"])} for case in cases]

def blocks_of(page):
    """The indented blocks of a page, without the indent."""
    for block in re.findall(r"(?:^    .*\n)+", page, re.M):
        yield re.sub(r"^    ", "", block, flags=re.M)

def examples_of(page):
    """The words of each command with the lines that it prints, and each list of users and policy as JSON."""
    names = {}
    for block in blocks_of(page):
        if block[0] in "[{":
            yield json.loads(block), None
            continue
        for line in block.splitlines():
            names |= re.findall(r"^(\w+)=(\S+)$", line)
        for command in re.split(r"^(?=ask \w|scimd (?:check|explain) )", block, flags=re.M)[1:]:
            command, printed = re.split(r"\n(?=HTTP/1.1 |ok, |rule |scimd: )", command, maxsplit=1)
            command = re.sub(r"\$(\w+)", lambda name: names.get(name[1], name[0]), command)
            yield shlex.split(command.replace("\\\n", "")), printed.splitlines()

def is_step(step, words, printed):
    """Whether a step is a request `ask CLIENT 'METHOD TARGET' 'BODY'` with its reply, whose body may be left out."""
    client, request, *body = words[1:]
    status, *gives = printed
    sent = [json.loads(text) for text in body] or [None]
    return (step.get("client") == client and step["request"] == [request + " HTTP/1.1"] and [step.get("body")] == sent
            and step["reply"][0] == status and gives in ([], [compact(step.get("gives"))]))

def compact(value):
    """JSON as the program writes it: without spaces, keys in byte order."""
    return json.dumps(value, sort_keys=True, separators=(",", ":"), ensure_ascii=False)

def command_of(case):
    """The command line that a case of `check`, of its faults or of `explain` stands for."""
    if case["call"] in ("check", "policy_detail"):
        return "scimd check --policy policy.json" + " --verbose" * case.get("verbose", False)
    asked = "--client {client} --op {op} --kind {kind} --id {id} --path {path}".format(**case)
    return "scimd explain --policy policy.json --db store.db " + asked

def is_shown(words, printed, cases):
    """Whether one of the cases shows a command."""
    if words[0] == "ask":
        return any(is_step(step, words, printed) for case in cases for step in case.get("steps", []))
    printed = "\n".join(printed).removeprefix("scimd: ")
    return any(command_of(case) == " ".join(words) and case["gives"].strip() == printed
               for case in cases if "call" in case)

def faults_of(guide, cases):
    """The policies and commands of a guide without a case, and the policies of cases that it doesn't give."""
    users, policies, policy = None, [], None
    for example, printed in examples_of((ROOT / "docs" / guide).read_text()):
        if isinstance(example, dict):
            policy = example
            policies.append(policy)
        elif printed is None:
            users = example
        elif not is_shown(example, printed, [case for case in cases if case["policy"] == policy]):
            yield f"{guide}: no case shows this by the policy above it: {shlex.join(example)}"
    for case in cases:
        if case["policy"] not in policies:
            yield f"{guide}: doesn't give the policy of the case: {case.get('shows') or case['gives']}"
        if users and case.get("users", users) != users:
            yield f"{guide}: has other users than the case: {case.get('shows') or case['gives']}"
    known = [case["policy"] for case in cases]
    yield from (f"{guide}: no case has the policy {compact(policy)}" for policy in policies if policy not in known)

def main(option):
    if option != "--check":
        sys.exit(__doc__)
    found = [fault for guide, names in GUIDES.items()
             for fault in faults_of(guide, [case for name in names for case in cases_of(name)])]
    sys.exit("\n".join(found) or None)

main(*sys.argv[1:] or [""])

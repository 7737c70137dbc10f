"""Which functions a program runs, as far as its text tells, for `tools/trusted`.

A function is reached from `main` where a function that is reached names it: by its own name or a path, if the file defines or
imports it; or, for a method, by `.name` or `::name` anywhere in what is reached. Methods of one name aren't told apart, so more
may be taken to be reached than runs, and never less, but for what macros and derives write.
"""

import re

NAME = re.compile(r"(?<![\w.])(?:(?:[A-Za-z_]\w*)\s*::\s*)*[A-Za-z_]\w*")
METHOD = re.compile(r"(?:\.|::)\s*([a-z_]\w*)")


class Calls:
    def __init__(self, repository, root):
        self.repository = repository
        self.methods = {}
        for file in repository.sources():
            for block in file.blocks:
                for method in block.methods:
                    self.methods.setdefault(method.name, []).append(method)
        self.reached = set()
        todo = [root]
        while todo:
            function = todo.pop()
            if function not in self.reached:
                self.reached.add(function)
                todo += self.named_in(function)

    def named_in(self, function):
        file = function.file
        first, last = function.body
        body = file.clean[first:last]
        found = [method for name in set(METHOD.findall(body)) for method in self.methods.get(name, [])]
        for path in set(NAME.findall(body)):
            parts = re.split(r"\s*::\s*", path)
            whole = file.used.get(parts[0], parts[:1]) + parts[1:]
            item = self.repository.own_type(file, path) or self.repository.at_path(file, whole)
            if item is not None and item.kind == "fn":
                found.append(item)
        # what a type gives for a trait may run without being named
        found += [method for block in file.blocks if block.trait is None and block.implements for method in block.methods]
        return found

    def function_at(self, file, line):
        """The function of the file that the line stands in."""
        functions = [item for item in file.items if item.kind == "fn"] + [it for block in file.blocks for it in block.methods]
        return next((item for item in functions if item.first <= line <= item.last), None)

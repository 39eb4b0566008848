"""The parser's part for modules and assignments (X.680, 13 and 16; X.683, 8)."""
from . import tree
from .classes import ClassParser
from .cursor import CLOSING, OPENING, split
from .source import NotationError, Problems
from .tokens import Kind, Token, scan


def read_text(text: str, path: str, problems: Problems) -> list[tree.Module]:
    """The modules of a text. An assignment that can't be read is an error, and the others are still read."""
    return ModuleParser(scan(text, path, problems), problems).modules()


def read_file(path: str, problems: Problems) -> list[tree.Module]:
    """The modules of a file."""
    with open(path, encoding="utf-8", errors="replace") as it:
        return read_text(it.read(), path, problems)


class ModuleParser(ClassParser):
    """Reads modules."""

    def modules(self) -> list[tree.Module]:
        """All modules up to the end of the file."""
        found = []
        while self.now.kind is not Kind.END:
            if self.at(";") and found:
                self.problems.deviation(self.take().place, "expected the name of a module, found `;`", "X.680, 13.1")
                continue
            found.append(self.module())
        return found

    def module(self) -> tree.Module:
        """A module with its header (X.680, 13.1)."""
        name = self.now
        if name.kind is Kind.LOWER and self.ahead().is_symbol("{", "DEFINITIONS"):
            self.problems.deviation(name.place, f"the name of a module begins with a capital letter: `{name.text}`", "X.680, 12.5")
            self.take()
        else:
            self.expect_kind(Kind.UPPER, "the name of a module", "X.680, 13.1")
        found = tree.Module(name.place, name.text)
        if self.at("{"):
            found.identifier = self.braced("X.680, 13.1")
        if self.now.kind is Kind.TEXT:
            self.take()
        self.expect("DEFINITIONS", "X.680, 13.1")
        self.defaults(found)
        self.expect("::=", "X.680, 13.1")
        self.expect("BEGIN", "X.680, 13.1")
        self.exports(found)
        self.imports(found)
        self.assignments(found)
        return found

    def defaults(self, module: tree.Module) -> None:
        """The default of tags (X.680, 13.2) and of extensibility (13.4)."""
        if self.at("EXPLICIT", "IMPLICIT", "AUTOMATIC"):
            module.tag_default = tree.TagMode[self.take().text]
            self.expect("TAGS", "X.680, 13.2")
        if self.accept("EXTENSIBILITY"):
            self.expect("IMPLIED", "X.680, 13.4")
            module.extensibility_implied = True

    def exports(self, module: tree.Module) -> None:
        """EXPORTS (X.680, 13.1). None stands for all."""
        start = self.accept("EXPORTS")
        if not start:
            return
        if self.accept("ALL"):
            self.expect(";", "X.680, 13.1")
            return
        module.exports = []
        while not self.accept(";"):
            if self.at("IMPORTS", "::=") or self.now.kind is Kind.END:
                raise NotationError(start.place, f"`EXPORTS` isn't closed by `;`: found {self.now.shown()}", "X.680, 13.1")
            token = self.take()
            if token.kind in (Kind.UPPER, Kind.LOWER):
                module.exports.append(token.text)

    def imports(self, module: tree.Module) -> None:
        """IMPORTS (X.680, 13.16)."""
        start = self.accept("IMPORTS")
        while start and not self.accept(";"):
            names = [(self.symbol(start), self.empty_braces())]
            while self.accept(","):
                names.append((self.symbol(start), self.empty_braces()))
            self.expect("FROM", "X.680, 13.16")
            source = self.expect_kind(self.now.kind if self.now.kind is Kind.LOWER else Kind.UPPER, "the name of a module", "X.680, 13.16")
            identifier = self.assigned_identifier()
            module.imports.extend(tree.Import(it.place, it.text, source.text, identifier, braces) for it, braces in names)

    def symbol(self, start: Token) -> Token:
        """A name that is imported. It may be that of a macro or a class whose name is reserved today."""
        if self.now.kind not in (Kind.UPPER, Kind.LOWER):
            if self.now.kind is Kind.END:
                raise NotationError(start.place, "`IMPORTS` isn't closed by `;`", "X.680, 13.1")
            self.refuse("a name that is imported", "X.680, 13.16")
        return self.take()

    def empty_braces(self) -> bool:
        """Whether `{}` is here, which is consumed: the name before it has parameters (X.683, 9.1)."""
        found = self.at("{") and self.ahead().is_symbol("}")
        if found:
            self.braced()
        return found

    def assigned_identifier(self) -> list[Token]:
        """The object identifier of the module that is imported from (X.680, 13.16): what is in its braces, or the name of one."""
        found = []
        if self.at("{"):
            found = self.braced("X.680, 13.16")
        elif self.now.kind is Kind.LOWER and not self.ahead().is_symbol(",", "FROM", "{"):
            found = [self.take()]
        if self.accept("WITH"):
            self.take()
        return found

    # ---- assignments

    def assignments(self, module: tree.Module) -> None:
        """All assignments up to END."""
        while not self.accept("END"):
            start = self.index
            if self.now.kind is Kind.END:
                self.refuse("an assignment or `END`", "X.680, 13.1")
            try:
                module.assignments.append(self.assignment())
                while self.at(";"):
                    self.problems.deviation(self.take().place, "expected an assignment, found `;`", "X.680, 13.1")
            except NotationError as error:
                self.problems.add(error.problem)
                head = self.tokens[start]
                module.assignments.append(tree.UnreadAssignment(head.place, head.text, error.problem))
                self.recover(start)

    def recover(self, start: int) -> None:
        """Goes on at the next line that looks like the first one of an assignment."""
        self.index = max(start + 1, min(self.index, len(self.tokens) - 1))
        while self.now.kind is not Kind.END and not self.at("END"):
            first = self.tokens[self.index - 1].place.line < self.now.place.line
            if first and self.now.place.column == self.tokens[start].place.column and self.begins_assignment():
                return
            self.index += 1

    def begins_assignment(self) -> bool:
        """Whether a name is next, and `::=` a few items later in no bracket."""
        if not self.at_name():
            return False
        depth = 0
        for count in range(1, 40):
            token = self.ahead(count)
            if depth == 0 and token.is_symbol("::="):
                return True
            if token.kind is Kind.END or depth == 0 and token.is_symbol(",", "}", ")"):
                return False
            depth += token.is_symbol(*OPENING) - token.is_symbol(*CLOSING)
        return False

    def assignment(self) -> tree.Assignment:
        """One assignment (X.680, 13.1)."""
        head = self.now
        if head.kind not in (Kind.UPPER, Kind.LOWER):
            self.refuse("an assignment or `END`", "X.680, 13.1")
        self.take()
        if head.kind is Kind.LOWER and self.at("::="):
            self.problems.deviation(head.place, f"the name of a type begins with a capital letter: `{head.text}`", "X.680, 12.2.1")
            return self.type_assignment(head, [])
        if self.at("MACRO"):
            return self.macro(head)
        parameters = self.parameters() if self.at("{") else []
        if head.kind is Kind.LOWER:
            return self.value_assignment(head, parameters)
        if self.at("::="):
            return self.type_assignment(head, parameters)
        return self.set_assignment(head, parameters)

    def type_assignment(self, head: Token, parameters: list[tree.Parameter]) -> tree.Assignment:
        """A type (X.680, 16.1) or a class (X.681, 9.1)."""
        self.expect("::=", "X.680, 16.1")
        if self.at("CLASS"):
            definition = self.class_definition()
            return tree.ClassAssignment(head.place, head.text, definition, parameters=parameters, comment=head.above)
        if self.at("TYPE-IDENTIFIER", "ABSTRACT-SYNTAX") and not self.ahead().is_symbol("."):
            return tree.ClassAssignment(head.place, head.text, self.take().text, parameters=parameters, comment=head.above)
        found = self.type()
        return tree.TypeAssignment(head.place, head.text, found, parameters=parameters, comment=head.above)

    def value_assignment(self, head: Token, parameters: list[tree.Parameter]) -> tree.Assignment:
        """A value (X.680, 16.2) or an information object (X.681, 11.1)."""
        governor = self.governor()
        if not self.at("::=") and isinstance(governor, tree.ReferenceType) and governor.name.isupper():
            return self.macro_value(head)
        self.expect("::=", "X.680, 16.2")
        found = self.value()
        return tree.ValueAssignment(head.place, head.text, governor, found, parameters=parameters, comment=head.above)

    def governor(self) -> tree.Type:
        """The type before a `::=`."""
        self.governs_value = True
        try:
            return self.type()
        finally:
            self.governs_value = False

    def set_assignment(self, head: Token, parameters: list[tree.Parameter]) -> tree.Assignment:
        """A set of values (X.680, 16.6) or of information objects (X.681, 12.1)."""
        governor = self.governor()
        self.expect("::=", "X.680, 16.6")
        if self.at_value() and not self.at("{"):
            self.problems.deviation(head.place, f"the name of a value begins with a small letter: `{head.text}`", "X.680, 12.4")
            return tree.ValueAssignment(head.place, head.text, governor, self.value(), parameters=parameters, comment=head.above)
        if not self.at("{"):
            self.refuse("`{`", "X.680, 16.6")
        return tree.SetAssignment(head.place, head.text, governor, self.braced("X.680, 16.6"), parameters=parameters, comment=head.above)

    def parameters(self) -> list[tree.Parameter]:
        """The parameters of an assignment (X.683, 8.2)."""
        opening, found = self.now, []
        for part in split(self.braced("X.683, 8.2"), ","):
            if not part or part[-1].kind not in (Kind.UPPER, Kind.LOWER):
                raise NotationError(opening.place, "expected the name of a parameter", "X.683, 8.3")
            governor = " ".join(it.text for it in part[:-1] if it.text != ":") or None
            found.append(tree.Parameter(part[-1].text, governor))
        return found

    # ---- macros of 1988

    def macro(self, head: Token) -> tree.MacroAssignment:
        """The definition of a MACRO (X.208, annex A), which isn't read."""
        self.problems.warn(head.place, f"the macro `{head.text}` of 1988 isn't read", "X.208, annex A")
        while not self.accept("END"):
            if self.now.kind is Kind.END:
                raise NotationError(head.place, f"the macro `{head.text}` isn't closed by `END`", "X.208, annex A")
            self.take()
        return tree.MacroAssignment(head.place, head.text, comment=head.above)

    def macro_value(self, head: Token) -> tree.MacroAssignment:
        """A value in the notation of a macro (X.208, annex A), which isn't read."""
        self.problems.warn(head.place, f"`{head.text}`, in the notation of a macro of 1988, isn't read", "X.208, annex A")
        while not self.accept("::="):
            if self.now.kind is Kind.END:
                self.refuse("`::=`", "X.680, 16.2")
            self.take()
        self.value()
        return tree.MacroAssignment(head.place, head.text, comment=head.above)

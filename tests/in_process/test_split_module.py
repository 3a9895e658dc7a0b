"""How a module is split into parts: which functions stand where, and that the parts fit together."""

import pytest

from dev.building.split_module import SHORT, Unknown, split

HEAD = 'source_filename = "rattle"\ntarget triple = "x86_64-unknown-linux-gnu"\n\n'
TAIL = "\n; Function Attrs: nounwind\ndeclare i64 @write(i32, ptr, i64) #0\n\nattributes #0 = { nounwind }\n!0 = !{}\n"
TEXT = '@text = private unnamed_addr constant [9 x i8] c"@nothing\\22", align 1\n'
TABLE = "@table = private constant <{ ptr, [1 x i8] }> <{ ptr @table, [1 x i8] zeroinitializer }>, align 8\n"
CELL = "@cell = private global [1 x i8] zeroinitializer, align 1\n"


def function(name, uses, lines=0):
    """A function that uses what is named, of some lines more than these."""
    head = f"define internal void @{name}(ptr %0) #0 {{\n" if name != "main" else "define i32 @main(i32 %0, ptr %1) {\n"
    body = "".join(f"  call void @{used}(ptr null)\n" for used in uses) + "  store i8 0, ptr %0\n" * lines
    return f"; Function Attrs: nounwind\n{head}{body}  ret void\n}}\n\n"


MODULE = HEAD + TEXT + TABLE + CELL + "".join([
    function("main", ['"a::first"', '"a::second"']),
    function('"a::first"', ["short", "text", "write", "lone"], 3 * SHORT),
    function('"a::second"', ["short", "deep", "table", "cell", '"a::first"'], SHORT),
    function("short", ["deeper", "text", "table"]),
    function("deeper", ["short", "cell"]),
    function("deep", [], SHORT),
    function("lone", []),
    function("never", ["never"]),
]) + TAIL


def heads(part, word):
    """The first words of what a part defines or declares, by name."""
    lines = [line for line in part.splitlines() if line.startswith(word)]
    return {line.partition("@")[2].partition("(")[0].partition(" = ")[0]: line.partition(" @")[0] for line in lines}


class TestParts:
    def setup_method(self):
        self.first, self.second = split(MODULE, 2)

    def test_long_functions_stand_once_and_short_ones_where_they_are_called(self):
        own = "define internal void"
        assert heads(self.first, "define") == {"main": "define i32", '"a::first"': "define hidden void", "short": own,
                                                       "deeper": own, "lone": own}
        assert heads(self.second, "define") == {'"a::second"': "define hidden void", "short": own, "deeper": own,
                                                "deep": own}

    def test_what_is_used_of_others_is_declared(self):
        assert heads(self.first, "declare") == {'"a::second"': "declare hidden void", "write": "declare i64"}
        assert heads(self.second, "declare") == {'"a::first"': "declare hidden void"}
        assert 'declare hidden void @"a::first"(ptr %0) #0\n' in self.second

    def test_a_text_is_copied_and_what_has_one_address_is_not(self):
        for part in (self.first, self.second):
            assert TEXT in part
        assert TABLE.replace("private", "hidden") in self.first
        assert CELL.replace("private", "hidden") in self.first
        assert "@table = external hidden constant %elsewhere\n" in self.second
        assert "@cell = external hidden global %elsewhere\n" in self.second

    def test_a_module_of_another_form_is_not_split(self):
        for other in (MODULE + "$group = comdat any\n", MODULE + "@other = alias void (), ptr @lone\n",
                      MODULE.replace("@main(", "@start("),
                      MODULE.replace("internal void @lone", "weak void @lone"),
                      MODULE.replace("i64 @write", "i64 @read"), HEAD + function("lone", []) + TAIL):
            with pytest.raises(Unknown):
                split(other, 2)

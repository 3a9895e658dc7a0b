`registry check`: where request lines would be refused, why, and what was probably meant.

  $ cat > some.lines << end
  > {"op":"list"}
  > {"op":"publsh"}
  > {"op":"yank","name":"A","version":"1"}
  > {"op":"list"}
  > end
  $ registry check some.lines
  some.lines:2:7: error 19 BadLine: there is no op "publsh"; did you mean "publish"?
  some.lines:3:22: error 1 BadName: the capital letter "A", byte 1 of the name "A", is not one of a-z, 0-9, - and _; did you mean "a"?
  some.lines:3:37: error 2 BadVersion: the version "1" has no minor number; did you mean "1.0.0"?
  registry: some.lines: 2 of 4 lines would be refused
  [1]

No faults, in a file and in standard input; also where that is closed.

  $ echo '{"op": "publish", "name": "a", "version": "1.0.0", "needs": []}' > good.lines
  $ registry check good.lines
  registry: good.lines: 1 line, and no errors
  $ registry check good.lines <&-
  registry: good.lines: 1 line, and no errors
  $ registry check - < /dev/null
  registry: <stdin>: 0 lines, and no errors

As JSON.

  $ registry check --json - << end
  > {"op":"list",}
  > {"op":"list"}
  > end
  {"faults":[{"column":13,"error":19,"line":1,"meant":null,"name":"BadLine","what":"there is a trailing comma"}],"file":"<stdin>","lines":2,"refused":1}
  registry: <stdin>: 1 of 2 lines would be refused
  [1]

A line without an end, and a text that is open where its line ends.

  $ (echo '{"op":"list"}'; head -c 3145728 /dev/zero | tr '\0' x; printf '\n{"op":"list"}\n{"op":"lists"}') > long.lines
  $ registry check long.lines
  long.lines:2:1: error 19 BadLine: the line has more than 1,048,576 bytes
  long.lines:4:7: error 19 BadLine: there is no op "lists"; did you mean "list"?
  registry: long.lines: 2 of 4 lines would be refused
  [1]
  $ printf '{"op":"list\n{"op":"list"}\n' > open.lines
  $ registry check open.lines
  open.lines:1:7: error 19 BadLine: this text has no closing quote
  registry: open.lines: 1 of 2 lines would be refused
  [1]

One mistake in thousands of lines.

  $ seq -f '{"op": "publish", "name": "a", "version": "1.%g.0", "needs": [["b", "^1"]]}' 6000 | sed '4322s/needs/neds/' > many.lines
  $ registry check many.lines
  many.lines:4322:55: error 19 BadLine: a publish line has no member "neds"; did you mean "needs"?
  registry: many.lines: 1 of 6,000 lines would be refused
  [1]

In colour.

  $ echo '{"op":"lists"}' > some.lines
  $ registry check some.lines --color always 2>&1 | tr '\033' '~'
  ~[1msome.lines:1:7:~[0m ~[31merror 19 BadLine:~[0m there is no op "lists"; did you mean "list"?
  ~[1mregistry:~[0m some.lines: 1 of 1 line would be refused

A file that is not there.

  $ registry check none.lines
  registry: none.lines: No such file or directory
  [3]

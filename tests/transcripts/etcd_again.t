Fronts over etcd that are begun again after their cells were dropped: they answer as before, or say that they can't.

  $ . "$TESTDIR/etcd.sh"
  $ again() { front serve --prefix "$1" --writer w; }

A command of each kind whose cell was dropped.

  $ number=0
  $ for line in "$(a1)" "$(yank a 1.0.0)" "$(a1)" "$(publish A 1.0.0)"; do
  >   front found --prefix kind$number
  >   (for other in $(seq $number); do publish c $other.0.0; done; echo "$line") | again kind$number > told
  >   front compact --prefix kind$number --keep 0
  >   echo "$line" | again kind$number || echo "status $?"
  >   number=$((number + 1))
  > done
  registryd-etcd: line 1 of w was answered before, and its reply is no longer kept
  status 1
  registryd-etcd: line 1 of w was answered before, and its reply is no longer kept
  status 1
  registryd-etcd: line 1 of w was answered before, and its reply is no longer kept
  status 1
  registryd-etcd: line 1 of w was answered before, and its reply is no longer kept
  status 1

It is told of cells that stay before the snapshot: the front begins with that, which has no replies of theirs.

  $ front found --prefix stay
  $ (a1; a2) | again stay > told
  $ front compact --prefix stay --keep 9
  $ (a1; a2) | again stay
  registryd-etcd: line 1 of w was answered before, and its reply is no longer kept
  [1]

Replies are kept of cells behind the snapshot.

  $ front found --prefix behind
  $ b1 | front serve --prefix behind > told
  $ front compact --prefix behind --keep 0
  $ (a1; a1; list; a2) | again behind > first
  $ head -n 1 first
  {"ok":true,"place":2,"revision":2,"seat":1}
  $ (a1; a1; list; a2) | again behind > second
  $ diff <(sed -n '1p; 4p' first) <(sed -n '1p; 4p' second)

Lines behind those whose cells were dropped: what changes nothing is answered anew, and the first command is not, nor one
that took no cell, since that isn't known any more.

  $ front found --prefix lines
  $ (list; a1) | again lines > told
  $ front compact --prefix lines --keep 0
  $ (list; a2) | again lines
  registryd-etcd: line 2 of w was answered before, and its reply is no longer kept
  [1]
  $ (list; list; list; b1) | again lines > told
  $ front compact --prefix lines --keep 0
  $ (list; list; b1) | again lines
  registryd-etcd: line 3 of w was answered before, and its reply is no longer kept
  [1]
  $ (list; list; list) | again lines
  {"packages":[["a",[["1.0.0",false]]],["b",[["1.0.0",false]]]],"place":2,"revision":2,"seat":1}
  {"packages":[["a",[["1.0.0",false]]],["b",[["1.0.0",false]]]],"place":2,"revision":2,"seat":1}
  {"packages":[["a",[["1.0.0",false]]],["b",[["1.0.0",false]]]],"place":2,"revision":2,"seat":1}
  $ (list; list; list; list; a1) | again lines
  {"packages":[["a",[["1.0.0",false]]],["b",[["1.0.0",false]]]],"place":2,"revision":2,"seat":1}
  {"packages":[["a",[["1.0.0",false]]],["b",[["1.0.0",false]]]],"place":2,"revision":2,"seat":1}
  {"packages":[["a",[["1.0.0",false]]],["b",[["1.0.0",false]]]],"place":2,"revision":2,"seat":1}
  {"packages":[["a",[["1.0.0",false]]],["b",[["1.0.0",false]]]],"place":2,"revision":2,"seat":1}
  {"error":7,"name":"AlreadyPublished","place":2,"revision":2,"seat":1}

A writer of another name is not concerned.

  $ front found --prefix other
  $ a1 | again other > told
  $ front compact --prefix other --keep 0
  $ (a1; a2) | front serve --prefix other --writer v
  {"error":7,"name":"AlreadyPublished","place":1,"revision":1,"seat":1}
  {"ok":true,"place":2,"revision":2,"seat":1}

Nor does a front find its replies in its own file.

  $ front found --prefix file
  $ a1 | front serve --prefix file --writer w --save file.journal > told
  $ a1 | front serve --prefix file --writer w --load file.journal
  registryd-etcd: line 1 of w was answered before, and its reply is no longer kept
  [1]

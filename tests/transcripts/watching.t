What is seen of a service from outside: the journal, the log, and what is no request.

  $ . "$TESTDIR/service.sh"
  $ log='{"op":"publish","name":"log","version":"1.0.0","needs":[]}'
  $ list='{"op":"list"}'
  $ resolve_log='{"op":"resolve","needs":[["log","*"]]}'
  $ resolve_app='{"op":"resolve","needs":[["app","*"]]}'

The journal as it stands, and as it stood.

  $ begin --port 0
  $ ask "$log" '{"op":"publish","name":"app","version":"1.0.0","needs":[["log","*"]]}' '{"op":"yank","name":"log","version":"1.0.0"}'
  {"ok":true,"revision":1}
  {"ok":true,"revision":2}
  {"ok":true,"revision":3}
  $ get '/journal?revision=4'
  404 Not Found
  the journal is at revision 3
  $ for which in "" "?revision=2" "?revision=0" "?revision=3"; do
  >   get "/journal$which" > answer && head -n 1 answer && sed 1d answer > copy
  >   echo "$list" | registryd serve --workers 1 --load copy | grep -o '"revision":.*'
  > done
  200 OK
  "revision":3}
  200 OK
  "revision":2}
  200 OK
  "revision":0}
  200 OK
  "revision":3}
  $ end

The log, which is begun anew at a signal.

  $ rm team.journal
  $ begin --port 0 --socket socket --readers 1 --log log
  $ ask "$log" "$resolve_log" "$resolve_app" x > told
  $ ask '{"op":"yank","name":"log","version":"2.0.0"}' > told
  $ registry resolve log --connect socket
  log 1.0.0
  $ mv log log.1 && kill -HUP "$service"
  $ until [ -e log ]; do sleep 0.05; done
  $ ask "$list" > told
  $ end
  $ fields='seconds=[0-9]+\.[0-9]{6} (reply=\S+ ).*'
  $ grep -v user: log.1 | sed -E "s/^.* client=\S+ (connection=.*)$fields/\1\2/"
  connection=1 op=publish package=log version=1.0.0 reply=accepted 
  connection=1 op=resolve reply=selected 
  connection=1 op=resolve reply=refused 
  connection=1 op=other reply=BadLine 
  connection=2 op=yank package=log version=2.0.0 reply=NoSuchVersion 
  $ grep user: log.1
  20\d\d-\d\d-\d\dT\d\d:\d\d:\d\d\.\d{3}Z client=user:\d+:process:\d+ connection=3 op=resolve .* (re)
  20\d\d-\d\d-\d\dT\d\d:\d\d:\d\d\.\d{3}Z client=user:\d+:process:\d+ connection=3 op=resolve .* (re)
  $ cat log
  20\d\d-\d\d-\d\dT\d\d:\d\d:\d\d\.\d{3}Z client=\S+ connection=\d+ op=list .* (re)

One on a full disk stops nothing.

  $ begin --port 0 --log /dev/full
  $ ask '{"op":"publish","name":"log","version":"3.0.0","needs":[]}' "$resolve_log"
  {"ok":true,"revision":2}
  {"revision":2,"selected":[["log","3.0.0"]]}
  $ kill "$service" && wait "$service"

A socket and a port: what it says as it begins, and nothing is left of the socket.

  $ rm team.journal
  $ begin --port 0 --socket socket
  $ cat begun
  team.journal is served at socket and 127\.0\.0\.1:\d+ \(revision 0\) (re)
  $ registry publish log 1.0.0 --connect socket
  published log 1.0.0 (revision 1)
  $ registry publish log 2.0.0 --connect "127.0.0.1:${at##*:}"
  published log 2.0.0 (revision 2)

One that can't begin leaves neither a journal that nobody asked for, nor a socket on which nobody listens; and that of
another service stays.

  $ mkdir empty
  $ for words in "--metrics-port ${at##*:} --socket empty/own" "--port ${at##*:}" "--port ${at##*:} --socket empty/own" \
  >   "--socket socket"; do
  >   registry serve --journal empty/team.journal $words
  >   echo "status $?" && ls -A empty
  > done
  registry: * port \d+ can't be taken.* (re)
  status 3
  registry: .*port \d+ can't be taken.* (re)
  status 3
  registry: .*port \d+ can't be taken.* (re)
  status 3
  registry: *another service answers there* (glob)
  status 3
  $ ls socket
  socket
  $ registry serve --journal other.journal --socket own --page-port "${at##*:}"
  other.journal is served at own (revision 0)
  registry: .*can't be taken.* (re)
  [3]
  $ registry serve --journal team.journal --port 0
  registry: team.journal is in use by another session: try again once that has ended
  [3]
  $ ls other.journal own 2> /dev/null
  other.journal
  [2]
  $ end
  $ ls socket 2> /dev/null
  [2]
  $ echo nonsense > empty/team.journal
  $ registry serve --journal empty/team.journal --port 0 2> /dev/null
  [3]
  $ ls -A empty
  team.journal
  $ printf 'registry-journal 2\nnonsense\nend 1\n' > empty/team.journal
  $ registry serve --journal empty/team.journal --port 0
  registry: empty/team.journal: line 2 is at fault* (glob)
  [3]

A page from elsewhere can have a browser send any text behind a head of HTTP: that is no request.

  $ rm team.journal
  $ begin --port 0
  $ for first in 'POST /' 'PUT /' 'OPTIONS /' 'POST / HTTP/1.1'; do
  >   rest '%s HTTP/1.1\r\nHost: localhost\r\nContent-Length: 60\r\n\r\n%s\n' "$first" "$log" | head -n 1
  > done
  HTTP/1.1 405 Method Not Allowed
  HTTP/1.1 405 Method Not Allowed
  HTTP/1.1 405 Method Not Allowed
  HTTP/1.1 400 Bad Request

Nor is what is meant for someone else, as where a browser is led to speak another protocol here: behind a first line that
begins no object nothing is carried out.

  $ long() { head -c "$1" /dev/zero | tr '\0' a; }
  $ for first in '\x16\x03\x01\x02\x00\x01\x00\x01\xfc\x03\x03' '\x16\x03\x01\n' 'GET /\r\n' 'PRI * HTTP/2.0\r\n\r\nSM\r\n\r\n' \
  >   'M-SEARCH * HTTP/1.1\r\n\r\n' 'USER x\r\n' '\nHELO x\r\n' '[]\n' "POST /$(long 1048476) HTTP/1.1\\r\\n\\r\\n" \
  >   "POST /$(long 3000000) HTTP/1.1\\r\\n\\r\\n"; do
  >   rest "$first\n$log\n" 2> /dev/null
  > done | sort -u
  {"error":19,"name":"BadLine","revision":0}
  $ ask "$list"
  {"packages":[],"revision":0}
  $ end

Connections on which a request over HTTP has begun count among the clients.

  $ begin --port 0 --clients 2
  $ exec 5<> "/dev/tcp/127.0.0.1/${at##*:}" 6<> "/dev/tcp/127.0.0.1/${at##*:}"
  $ for place in 5 6; do printf 'GET /health HTTP/1.1\r\n' >&$place; done
  $ rest "$list\n"
  {"error":503,"name":"TooManyClients","revision":0}
  $ printf 'Host: localhost\r\n\r\n' >&5; head -n 1 <&5 | tr -d '\r'
  HTTP/1.1 200 OK
  $ exec 5>&-
  $ until [ "$(ask "$list")" = '{"packages":[],"revision":0}' ]; do sleep 0.05; done
  $ until get /metrics | grep -q '^registryd_clients 0$'; do sleep 0.05; done

And who asks lines has a place that one over HTTP lacks.

  $ exec 5<> "/dev/tcp/127.0.0.1/${at##*:}"; echo "$list" >&5; head -n 1 <&5
  {"packages":[],"revision":0}
  $ get /journal
  503 Service Unavailable
  as many clients as are allowed are connected
  $ exec 5>&- 6>&-
  $ end

Health and counts are told where there is no room, also beside some who wait, and these are let go soon.

  $ begin --port 0 --clients 1
  $ exec 5<> "/dev/tcp/127.0.0.1/${at##*:}"; echo "$list" >&5; head -n 1 <&5
  {"packages":[],"revision":0}
  $ get /health
  200 OK
  ok
  $ get /metrics | grep '^registryd_clients '
  registryd_clients 1
  $ get /journal
  503 Service Unavailable
  as many clients as are allowed are connected
  $ for number in $(seq 10); do exec {place}<> "/dev/tcp/127.0.0.1/${at##*:}"; waiting+=($place); done
  $ get /health
  200 OK
  ok
  $ for place in "${waiting[@]}"; do cat <&$place; done | uniq -c
       10 {"error":503,"name":"TooManyClients","revision":0}
  $ echo "$list" >&5; head -n 1 <&5
  {"packages":[],"revision":0}
  $ exec 5>&-
  $ end

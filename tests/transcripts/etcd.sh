# For transcripts: a small etcd in memory, which goes with the shell, and short words for what is asked over it.
top=${TESTDIR%/*/*}
exec 8< <(exec python3 "$top" tests.support.fake_etcd 2> /dev/null < /dev/null)
read -r etcd <&8

# A command of registryd-etcd.
front() { python3 -S "$top" registry_etcd "$1" --endpoints "$etcd" --program "$REGISTRY_PROGRAM" "${@:2}"; }

# Request lines: of a publication its needs, as they stand in a line, come last.
publish() { printf '{"op":"publish","name":"%s","version":"%s","needs":[%s]}\n' "$1" "$2" "$3"; }
yank() { printf '{"op":"yank","name":"%s","version":"%s"}\n' "$1" "$2"; }
unyank() { printf '{"op":"unyank","name":"%s","version":"%s"}\n' "$1" "$2"; }
resolve() { printf '{"op":"resolve","needs":[["%s","%s"]]}\n' "$1" "$2"; }
list() { echo '{"op":"list"}'; }
a1() { publish a 1.0.0; }
a2() { publish a 2.0.0 '["b","^1"]'; }
b1() { publish b 1.0.0; }

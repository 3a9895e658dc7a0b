`hold` makes the journal anew, of the commands that it is given.

  $ hold() { rm -f registry.journal; registry --quiet shell > /dev/null; }

Worked.

  $ hold << end
  > publish x 1.0.0
  > publish x 2.0.0 y@=1.0.0
  > publish y 1.0.0
  > publish y 2.0.0
  > end
  $ registry why y x --not y 2.0.0
  y *, x *: y 2.0.0 can't be selected with x 2.0.0, which comes before it
    Because the selection has x 2.0.0 which depends on y "=1.0.0", the selection requires y "=1.0.0".
    And because y 2.0.0 is asked for, y 2.0.0 can't be selected.
  a selection with y 2.0.0 also changes:
    ~ x 2.0.0 -> 1.0.0 (older)
  $ hold << end
  > publish a 1.0.0
  > publish a 2.0.0
  > publish c 1.0.0
  > publish z 1.0.0
  > publish z 2.0.0 a@~1.0
  > end
  $ registry why a c z --not z 2.0.0
  a *, c *, z *: z 2.0.0 can't be selected with a 2.0.0, which comes before it
    Because z 2.0.0 depends on a ~1.0 and the selection has a 2.0.0, z 2.0.0 is forbidden.
    And because z 2.0.0 is asked for, z 2.0.0 can't be selected.
  a selection with z 2.0.0 also changes:
    ~ a 2.0.0 -> 1.0.0 (older)
  $ hold << end
  > publish app 1.0.0 log@^1
  > publish app 2.0.0 log@^2
  > publish log 1.0.0
  > publish log 2.0.0
  > end
  $ echo '[["app", "1.0.0"]]' > a.lock
  $ registry why app --lock a.lock --not log 2.0.0
  app *: log 2.0.0 can't be selected with app 1.0.0, which comes before it
    Because the selection has app 1.0.0 which depends on log ^1, the selection requires log ^1.
    And because log 2.0.0 is asked for, log 2.0.0 can't be selected.
  a selection with log 2.0.0 also changes:
    ~ app 1.0.0 -> 2.0.0 (beyond ^1.0.0)
  $ hold << end
  > publish a 1.0.0
  > publish a 2.0.0 b@=2.0.0
  > publish b 1.0.0
  > publish b 2.0.0
  > end
  $ echo '[["b", "1.0.0"]]' > a.lock
  $ registry why a b --lock a.lock --not b 1.0.0
  a *, b *: b 1.0.0 can't be selected with a 2.0.0, which comes before it
    Because the selection has a 2.0.0 which depends on b "=2.0.0", the selection requires b "=2.0.0".
    And because b 1.0.0 is asked for, b 1.0.0 can't be selected.
  a selection with b 1.0.0 also changes:
    ~ a 2.0.0 -> 1.0.0 (older)
  $ hold << end
  > publish a 1.0.0
  > publish a 2.0.0 b
  > end
  $ registry why a --not a 1.0.0
  a 1.0.0 is what was selected
  $ registry why a --not a 2.0.0
  a *: a 2.0.0 can't be selected
    Because a 2.0.0 depends on b * and no version of b is published, a 2.0.0 is forbidden.
    And because a 2.0.0 is asked for, a 2.0.0 can't be selected.
  $ hold << end
  > publish a 1.0.0
  > publish a 2.0.0
  > yank a 2.0.0
  > end
  $ registry why a --not a 2.0.0
  a *: a 2.0.0 can't be selected
    Because a 2.0.0 is asked for and a 2.0.0 is yanked, a 2.0.0 can't be selected.
  $ hold << end
  > publish a 1.0.0
  > publish a 2.0.0
  > end
  $ registry why a --not a 1.0.0
  a 1.0.0 can be selected; a 2.0.0 was selected, which is higher
  a selection with it changes nothing else


A request that has as many needs as may be.

  $ seq -f "publish p%g 1.0.0" 65 | hold
  $ registry why $(seq -f p%g 64) --not p65 1.0.0
  p65 1.0.0 can be selected; no version of p65 was selected, since nothing that was selected needs one
  a selection with it changes nothing else

A version that no requirement names alone, since it has as many bytes as a requirement may have.

  $ long=1.0.0-$(printf %0250d 0 | tr 0 x)
  $ hold << end
  > publish p $long
  > publish p 2.0.0
  > end
  $ registry why p@\>=1.0.0-a --not p $long | tr -s x
  p 1.0.0-x can be selected; p 2.0.0 was selected, which is higher
  a selection with it changes nothing else

#!/bin/sh
# Writes proofs/Shapes.antt to standard output: for each of ≤ℤ, <ℤ and ≡ a rule that reads it and one that makes it, where at
# least one side is a sum or a difference of two; that a sum or a difference fits; and `zlin`, the set of all of them.
set -eu

# A side is named v, a or s: a number alone, a sum, a difference. Of a side and its one or two names:
term() { case $1 in v) printf %s "$2" ;; a) printf '(%s +ℤ %s)' "$2" "$3" ;; s) printf '(%s -ℤ %s)' "$2" "$3" ;; esac; }
ups() { case $1 in v) printf 'up %s' "$2" ;; a) printf 'up %s + up %s' "$2" "$3" ;; s) printf 'up %s + down %s' "$2" "$3" ;; esac; }
downs() { case $1 in v) printf 'down %s' "$2" ;; a) printf 'down %s + down %s' "$2" "$3" ;; s) printf 'down %s + up %s' "$2" "$3" ;; esac; }
fact() { case $1 in v) ;; a) printf ', sum %s %s' "$2" "$3" ;; s) printf ', dif %s %s' "$2" "$3" ;; esac; }
names() { case $1 in v) printf %s "$2" ;; *) printf '%s %s' "$2" "$3" ;; esac; }

cat <<'HEAD'
-- Orders and equations of integers with a sum or a difference on a side, read as facts of natural numbers and made from them.
-- Written by shapes.sh. Assumes nothing.
use mathlib.Core.Path.{◌≡◌}
use Prim.Native.Nat.{◌+◌, ◌-◌, ◌^◌, ◌≤◌, ◌<◌}
use lib.IntN.{ℤ, ◌+ℤ◌, ◌-ℤ◌}
use lib.Signed.{◌≤ℤ◌, ◌<ℤ◌}
use mir.Syntax.{Width}
use mir.Val.{SFits, hbits}
use Rattle.ints.specs.Parts.{up, down}
use Rattle.ints.proofs.Sums.{sum, dif}
use Rattle.ints.proofs.Ranges.{zarith}
HEAD
rules=
for relation in le lt eq; do
    case $relation in le) ints='≤ℤ' nats='≤' ;; lt) ints='<ℤ' nats='<' ;; eq) ints='≡' nats='≡' ;; esac
    for left in s a v; do
        for right in s a v; do
            [ $left$right = vv ] && continue
            all="$(names $left a b) $(names $right c d)"
            order="$(term $left a b) $ints $(term $right c d)"
            plain="$(ups $left a b) + $(downs $right c d) $nats $(ups $right c d) + $(downs $left a b)"
            by="omega (zarith$(fact $left a b)$(fact $right c d))"
            name=${relation}_$left$right
            rules="$rules, read_$name, make_$name"
            printf '\npub read_%s : (%s : ℤ) → %s → %s\nread_%s %s h = %s\n' $name "$all" "$order" "$plain" $name "$all" "$by"
            printf '\npub make_%s : (%s : ℤ) → %s → %s\nmake_%s %s h = %s\n' $name "$all" "$plain" "$order" $name "$all" "$by"
        done
    done
done
for side in s a; do
    more="$(ups $side a b)" less="$(downs $side a b)"
    case $side in s) name=fits_dif ;; a) name=fits_sum ;; esac
    rules="$rules, $name"
    printf '\npub %s : (w : Width) (a b : ℤ) → (%s - (%s)) + (%s - (%s)) < 2 ^ hbits w → SFits w %s\n' $name "$more" "$less" "$less" "$more" "$(term $side a b)"
    printf '%s w a b h = omega (zarith%s)\n' $name "$(fact $side a b)"
done
printf '\n-- Linear arithmetic over the integers, sums and differences of two among it.\n'
printf 'pub ruleset zlin = (%s, zarith)\n' "${rules#, }"

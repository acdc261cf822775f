# What ./check and ci/quick have in common: steps that run side by side.
#
# Who reads this says what a step is by a function `step`, which gets its name, and has a folder $said for what the steps print.
# shellcheck shell=sh

side_by_side() { # NAME.., and then what they print, in this order; it fails where one of them does
    running=
    for name; do
        {
            status=0
            # shellcheck disable=SC2154 # the folder of who reads this
            step "$name" >"$said/$name" 2>&1 || status=$?
            times >"$said/$name.times"
            echo "$status" >"$said/$name.status"
        } &
        running="$running $!"
    done
    # shellcheck disable=SC2086 # numbers of processes
    wait $running
    failed=
    for name; do
        cat "$said/$name"
        echo "check: $name, processor time: $(sed -n 2p "$said/$name.times")"
        read -r status <"$said/$name.status"
        [ "$status" -eq 0 ] || [ "$status" -eq 77 ] || {
            echo "check: $name ended with status $status" >&2
            failed="$failed $name"
        }
    done
    [ -z "$failed" ] || {
        echo "check: failed:$failed" >&2
        return 1
    }
}

of_the_tree() { # what needs neither a proof nor the program
    side_by_side format documents edge_declarations edge_tables option_tables "rows --form" "rows --ends" first_command test_batches.py \
        test_beside_gate.py test_proved_work.py
}

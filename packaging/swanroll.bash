# Completion of swanroll's commands, options, planners and policies, for bash.

# The options that a command takes.
_swanroll_options() {
    case $1 in
        plan) echo --planner ;;
        sim) echo --policy ;;
        rehearse) echo --seed --events --policy ;;
        trial) echo --k --switches --flows --seed --events --policy ;;
        run) echo --workers --rounds --policy --migration --term ;;
        takeover) echo --term --workers --rounds --policy --migration ;;
        drain) echo --workers --rounds --migration ;;
        rollback) echo --workers --rounds --migration --from ;;
        report) echo --live --follow --migration ;;
        left) echo --migration ;;
        retarget) echo --planner --shed --migration ;;
        held) echo --rounds ;;
        agent) echo --guests ;;
    esac
}

_swanroll() {
    local word=${COMP_WORDS[COMP_CWORD]} before=${COMP_WORDS[COMP_CWORD - 1]} words= option
    if [[ $before == [\<\>]* ]]; then
        : # a file, by the default
    elif [ "$COMP_CWORD" -eq 1 ]; then
        words="plan check loads explain back least sim rehearse trial run takeover drain rollback report left retarget held agent"
    elif [ "$before" = --policy ]; then
        words="critical order freeze"
    elif [ "$before" = --planner ]; then
        words="slack fewest"
    elif [ "$before" = --from ]; then
        words="level here"
    elif [[ $before != --* || $before = --live ]]; then
        # each option at most once
        for option in $(_swanroll_options "${COMP_WORDS[1]}"); do
            [[ " ${COMP_WORDS[*]:2:COMP_CWORD-2} " == *" $option "* ]] || words+=" $option"
        done
    fi
    COMPREPLY=($(compgen -W "$words" -- "$word"))
}

complete -o default -F _swanroll swanroll

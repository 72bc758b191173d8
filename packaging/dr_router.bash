# What bash offers for the words of dr_router; `source packaging/dr_router.bash` turns it on.

# The titles of the nodes in a plan's text.
_dr_router_nodes() {
    sed -n 's/^ *name *= *"\([^"]*\)".*/\1/p' "$1" 2>/dev/null
}

# What the words of an audit before the last are of: `running` nodes, `files` in a folder, or either.
_dr_router_audited() {
    local index before=
    for ((index = 4; index < COMP_CWORD; index++)); do
        local given=${COMP_WORDS[index]}
        case "$given" in
            --at | --at=* | --token | --token=*)
                echo running
                return ;;
        esac
    done
    for ((index = 4; index < COMP_CWORD; index++)); do
        local given=${COMP_WORDS[index]}
        if [ "${given#-}" = "$given" ] && [ "$before" != "--other" ]; then
            echo files
            return
        fi
        before=$given
    done
    echo either
}

# What is offered for the word of an audit behind the certificate: a folder of ledgers, or nodes that run, not both.
_dr_router_audit() {
    local IFS=$'\n' before=${COMP_WORDS[COMP_CWORD - 1]}
    if [ "$before" = "--other" ] || [ "$before" = "--at" ]; then
        compgen -W "$(_dr_router_nodes "${COMP_WORDS[2]}")" -- "$1"
        return
    fi
    case "$(_dr_router_audited)" in
        running) compgen -W "--other"$'\n'"--at"$'\n'"--token" -- "$1" ;;
        files) compgen -W "--other" -- "$1" ;;
        either)
            compgen -W "--other"$'\n'"--at" -- "$1"
            compgen -d -- "$1" ;;
    esac
}

_dr_router() {
    local words="check expand import verify route graph lint expect diff simulate echo new serve send list requeue drop forget visit backup stop adopt audit help"
    local current=${COMP_WORDS[COMP_CWORD]} word=${COMP_WORDS[1]} plan=${COMP_WORDS[2]}
    COMPREPLY=()
    if [ "$COMP_CWORD" -eq 1 ]; then
        mapfile -t COMPREPLY < <(compgen -W "$words" -- "$current")
        return
    fi
    if [ "$word ${COMP_WORDS[COMP_CWORD - 1]}" = "serve --log" ]; then
        mapfile -t COMPREPLY < <(compgen -W "error info debug" -- "$current")
        return
    fi
    if [ "$word ${COMP_WORDS[COMP_CWORD - 1]}" = "serve --report" ] || [ "$word ${COMP_WORDS[COMP_CWORD - 1]}" = "serve --control-token" ]; then
        mapfile -t COMPREPLY < <(compgen -f -- "$current")
        return
    fi
    if [ "${COMP_WORDS[COMP_CWORD - 1]}" = "--token" ] || [ "$word $COMP_CWORD" = "backup 9" ]; then
        mapfile -t COMPREPLY < <(compgen -f -- "$current")
        return
    fi
    if [ "$word" = "audit" ] && [ "$COMP_CWORD" -gt 3 ]; then
        mapfile -t COMPREPLY < <(_dr_router_audit "$current")
        return
    fi
    if [ "$word ${COMP_WORDS[COMP_CWORD - 1]}" = "adopt --without" ]; then
        local IFS=$'\n'
        mapfile -t COMPREPLY < <(compgen -W "$(_dr_router_nodes "$plan")" -- "$current")
        return
    fi
    if [ "$word" = "adopt" ] && [ "$COMP_CWORD" -gt 6 ]; then
        mapfile -t COMPREPLY < <(compgen -W "--dry-run --without" -- "$current")
        return
    fi
    if [ "${COMP_WORDS[5]}" = "--at" ] && [ "$COMP_CWORD" -gt 6 ]; then
        local IFS=$'\n'
        mapfile -t COMPREPLY < <(compgen -W "--token"$'\n'"--summary"$'\n'"--fail-if-held"$'\n'"--all-held"$'\n'"--reason"$'\n'"$(_dr_router_nodes "$plan")" -- "$current")
        return
    fi
    case "$word $COMP_CWORD" in
        "route 4" | "echo "[34] | "new 4" | "serve 4" | "send 4" | "list 4" | "requeue "[47] | "drop "[47] | "forget 4" | "visit 4" | "backup 4" | "stop 4")
            local IFS=$'\n'
            mapfile -t COMPREPLY < <(compgen -W "$(_dr_router_nodes "$plan")" -- "$current") ;;
        "check 2" | "expand 2" | "import 2" | "verify "[23] | "route "[235] | "graph "[23] | "lint "[23] | "expect "[234] | "diff "[2345] | "simulate "[234] | "echo 2" | "new "[235] | "serve "[235] | "send "[2356] | "list "[235] | "requeue "[235] | "drop "[235] | "forget "[235] | "visit "[23] | "backup "[23] | "stop "[23] | "adopt "[2345] | "audit "[23])
            mapfile -t COMPREPLY < <(compgen -f -- "$current") ;;
        "adopt 6")
            mapfile -t COMPREPLY < <(compgen -d -- "$current") ;;
        "serve 6" | "serve 8" | "serve 1"[02468])
            mapfile -t COMPREPLY < <(compgen -W "--links --log --report --workers --memory --connect --request --write --message --idle --until-input-ends --must-exist --forget-after --forget-never --control --control-token --control-host --control-anyone" -- "$current") ;;
        "stop 5" | "visit 5" | "backup 5")
            mapfile -t COMPREPLY < <(compgen -W "--at" -- "$current") ;;
        "new 6")
            mapfile -t COMPREPLY < <(compgen -W "--data-file" -- "$current") ;;
        "list 6")
            mapfile -t COMPREPLY < <(compgen -W "--summary --long" -- "$current") ;;
        "diff 6")
            mapfile -t COMPREPLY < <(compgen -W "--fail-on-lost --json" -- "$current") ;;
        "lint 4")
            mapfile -t COMPREPLY < <(compgen -W "--strict --json" -- "$current") ;;
        "check 3")
            mapfile -t COMPREPLY < <(compgen -W "--all --json" -- "$current") ;;
        "expect 5" | "route 6" | "route 9")
            mapfile -t COMPREPLY < <(compgen -W "--json" -- "$current") ;;
        "requeue 6")
            mapfile -t COMPREPLY < <(compgen -W "--all-held" -- "$current") ;;
        "help 2")
            mapfile -t COMPREPLY < <(compgen -W "$words" -- "$current") ;;
    esac
}

complete -o filenames -F _dr_router dr_router ./dr_router

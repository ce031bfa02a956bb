# Completions of ncp for bash.
_ncp() {
    local word=${COMP_WORDS[COMP_CWORD]}
    if [ "$COMP_CWORD" -eq 1 ]; then
        COMPREPLY=($(compgen -W "show check count convert audit follow host world record explain help --help --version" -- "$word"))
        return
    fi
    case ${COMP_WORDS[1]} in
    explain) COMPREPLY=($(compgen -W "BadHeader Truncated TooLong SpareNotZero ReadFailed WriteFailed BadDirection Mixed BadLine LineTooLong BadHosts OutOfMemory UnknownPeer NotUp BadSex BadSize BadRoom NoEntry AlreadyAsked Closing NotOpen WrongEnd NotWhole Busy NoRoom TooMuch TableFull QueueFull ShortPrefix M1NotZero SizeZero M2NotZero TextMissing short own-host kind fault wrong-link wrong-size extras occupied changed stray unsent false-answer bad early rst-again rrp-unasked unquiet rrp-first missing skipped eco-again erp-unasked err-unjust sex link-range size-zero asked-again unended link-used cls-unknown cls-again text-out not-open over-limit gvb-again ret-unasked ret-other ret-over text-not-open text-size text-over cls cls-sent cls-came rst-sent rst-came rrp-came end at to-imp from-imp host link flags low regular going-down nop rfnm dead incomplete type type-0 type-1 type-2 type-3 type-4 type-5 type-6 type-7 type-8 type-9 type-10 type-11 type-12 type-13 type-14 type-15 faults size count text bits code data NOP RTS STR CLS ALL GVB RET INR INS ECO ERP ERR RST RRP receive send my your fm fb messages imp name rest not-out twice altered came not-come began wait owe since by no-pair closed not-asked of judged not-judged connections crowded suspended restarted connection part alone local remote opened ended late letters granted returned sent - a b ok refused up down want asked heard leaving left stored interrupts none not-up over other unknown in out answered control admitted held nothing ledger counters all ret reset wake phase echoed errors counts ignored echo interrupt close state ask-send ask-receive give take allocate call-back restart feed deliver lose answer settle" -- "$word")) ;;
    help) COMPREPLY=($(compgen -W "show check count convert audit follow host world record explain" -- "$word")) ;;
    convert) COMPREPLY=($(compgen -W "--at --help" -- "$word") $(compgen -f -- "$word")) ;;
    audit) COMPREPLY=($(compgen -W "--part --standard --coverage --strict --help" -- "$word") $(compgen -f -- "$word")) ;;
    follow) COMPREPLY=($(compgen -W "--part --letters --bytes --raw --help" -- "$word") $(compgen -f -- "$word")) ;;
    *) COMPREPLY=($(compgen -W "--help" -- "$word") $(compgen -f -- "$word")) ;;
    esac
}
complete -o filenames -F _ncp ncp

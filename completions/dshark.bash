# bash completion of dshark, made by tools/make-completions from --help and the table of fields; do not edit it.

_dshark_fields=('eth[0].dst'
'eth[0].src'
'eth[0].type'
'eth[-1].dst'
'eth[-1].src'
'eth[-1].type'
'tag[0].pcp'
'tag[0].dei'
'tag[0].vid'
'tag[0].type'
'tag[-1].pcp'
'tag[-1].dei'
'tag[-1].vid'
'tag[-1].type'
'ipv4[0].version'
'ipv4[0].ihl'
'ipv4[0].tos'
'ipv4[0].len'
'ipv4[0].id'
'ipv4[0].flags'
'ipv4[0].off'
'ipv4[0].ttl'
'ipv4[0].proto'
'ipv4[0].sum'
'ipv4[0].src'
'ipv4[0].dst'
'ipv4[-1].version'
'ipv4[-1].ihl'
'ipv4[-1].tos'
'ipv4[-1].len'
'ipv4[-1].id'
'ipv4[-1].flags'
'ipv4[-1].off'
'ipv4[-1].ttl'
'ipv4[-1].proto'
'ipv4[-1].sum'
'ipv4[-1].src'
'ipv4[-1].dst'
'ipv6[0].version'
'ipv6[0].class'
'ipv6[0].flow'
'ipv6[0].len'
'ipv6[0].next'
'ipv6[0].hops'
'ipv6[0].src'
'ipv6[0].dst'
'ipv6[-1].version'
'ipv6[-1].class'
'ipv6[-1].flow'
'ipv6[-1].len'
'ipv6[-1].next'
'ipv6[-1].hops'
'ipv6[-1].src'
'ipv6[-1].dst'
'ext[0].next'
'ext[0].hlen'
'ext[-1].next'
'ext[-1].hlen'
'frag[0].next'
'frag[0].off'
'frag[0].more'
'frag[0].id'
'frag[-1].next'
'frag[-1].off'
'frag[-1].more'
'frag[-1].id'
'tcp[0].sport'
'tcp[0].dport'
'tcp[0].seq'
'tcp[0].ack'
'tcp[0].off'
'tcp[0].flags'
'tcp[0].window'
'tcp[0].sum'
'tcp[0].urg'
'tcp[-1].sport'
'tcp[-1].dport'
'tcp[-1].seq'
'tcp[-1].ack'
'tcp[-1].off'
'tcp[-1].flags'
'tcp[-1].window'
'tcp[-1].sum'
'tcp[-1].urg'
'udp[0].sport'
'udp[0].dport'
'udp[0].len'
'udp[0].sum'
'udp[-1].sport'
'udp[-1].dport'
'udp[-1].len'
'udp[-1].sum'
'icmp[0].type'
'icmp[0].code'
'icmp[0].sum'
'icmp[0].rest'
'icmp[-1].type'
'icmp[-1].code'
'icmp[-1].sum'
'icmp[-1].rest'
'icmp6[0].type'
'icmp6[0].code'
'icmp6[0].sum'
'icmp6[0].rest'
'icmp6[-1].type'
'icmp6[-1].code'
'icmp6[-1].sum'
'icmp6[-1].rest'
'gre[0].c'
'gre[0].k'
'gre[0].s'
'gre[0].version'
'gre[0].proto'
'gre[0].sum'
'gre[0].key'
'gre[0].seq'
'gre[-1].c'
'gre[-1].k'
'gre[-1].s'
'gre[-1].version'
'gre[-1].proto'
'gre[-1].sum'
'gre[-1].key'
'gre[-1].seq'
'vxlan[0].flags'
'vxlan[0].vni'
'vxlan[-1].flags'
'vxlan[-1].vni')

_dshark() {
    local words=() word=${COMP_WORDS[COMP_CWORD]} kind= plain=() options=() number=0 at
    # --name=VALUE stands here as three words.
    [ "$word" = = ] && word=
    local before=${COMP_WORDS[COMP_CWORD-1]}
    [ "$before" = = ] && before=${COMP_WORDS[COMP_CWORD-2]}
    word=${word#[\'\"]}
    COMPREPLY=()
    if [ "$COMP_CWORD" -eq 1 ]; then
        mapfile -t COMPREPLY < <(compgen -W 'count stack check central run sample --help --version' -- "$word")
        return
    fi
    case ${COMP_WORDS[1]} in
        count) plain=(FIELD WINDOW CAPTURE) options=() ;;
        stack) plain=(CAPTURE) options=(--port --field) ;;
        check) plain=(JOB) options=() ;;
        central) plain=(JOB) options=() ;;
        run) plain=(JOB) options=(--parsers --groupers --processors --credits) ;;
        sample) plain=(N) options=(--parsers --groupers --processors --credits) ;;
        --help) plain=() options=() ;;
        --version) plain=() options=() ;;
        *) return ;;
    esac
    # The value of an option, or the word of that number which the command needs.
    case $before in
        --credits) kind=N ;;
        --field) kind=FIELD ;;
        --groupers) kind=N ;;
        --parsers) kind=N ;;
        --port) kind=N ;;
        --processors) kind=N ;;
        *)
            for ((at = 2; at < COMP_CWORD; at++)); do
                case ${COMP_WORDS[at]} in
                    --*=*) ;;
                    --*) [ "${COMP_WORDS[at+1]}" = = ] && ((at++)); ((at++)) ;;
                    *) ((number++)) ;;
                esac
            done
            kind=${plain[number]}
            ;;
    esac
    if [[ $word == -* && $before != --* ]]; then
        mapfile -t COMPREPLY < <(compgen -W "${options[*]}" -- "$word")
        return
    fi
    case $kind in
        FIELD) mapfile -t COMPREPLY < <(compgen -W "${_dshark_fields[*]}" -- "$word") ;;
        CAPTURE|JOB)
            compopt -o filenames 2>/dev/null
            mapfile -t COMPREPLY < <(compgen -f -- "$word")
            ;;
        '') mapfile -t COMPREPLY < <(compgen -W "${options[*]}" -- "$word") ;;
    esac
}

complete -F _dshark dshark

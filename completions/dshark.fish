# fish completion of dshark, made by tools/make-completions from --help and the table of fields; do not edit it.

set -l fields \
    'eth[0].dst' \
    'eth[0].src' \
    'eth[0].type' \
    'eth[-1].dst' \
    'eth[-1].src' \
    'eth[-1].type' \
    'tag[0].pcp' \
    'tag[0].dei' \
    'tag[0].vid' \
    'tag[0].type' \
    'tag[-1].pcp' \
    'tag[-1].dei' \
    'tag[-1].vid' \
    'tag[-1].type' \
    'ipv4[0].version' \
    'ipv4[0].ihl' \
    'ipv4[0].tos' \
    'ipv4[0].len' \
    'ipv4[0].id' \
    'ipv4[0].flags' \
    'ipv4[0].off' \
    'ipv4[0].ttl' \
    'ipv4[0].proto' \
    'ipv4[0].sum' \
    'ipv4[0].src' \
    'ipv4[0].dst' \
    'ipv4[-1].version' \
    'ipv4[-1].ihl' \
    'ipv4[-1].tos' \
    'ipv4[-1].len' \
    'ipv4[-1].id' \
    'ipv4[-1].flags' \
    'ipv4[-1].off' \
    'ipv4[-1].ttl' \
    'ipv4[-1].proto' \
    'ipv4[-1].sum' \
    'ipv4[-1].src' \
    'ipv4[-1].dst' \
    'ipv6[0].version' \
    'ipv6[0].class' \
    'ipv6[0].flow' \
    'ipv6[0].len' \
    'ipv6[0].next' \
    'ipv6[0].hops' \
    'ipv6[0].src' \
    'ipv6[0].dst' \
    'ipv6[-1].version' \
    'ipv6[-1].class' \
    'ipv6[-1].flow' \
    'ipv6[-1].len' \
    'ipv6[-1].next' \
    'ipv6[-1].hops' \
    'ipv6[-1].src' \
    'ipv6[-1].dst' \
    'ext[0].next' \
    'ext[0].hlen' \
    'ext[-1].next' \
    'ext[-1].hlen' \
    'frag[0].next' \
    'frag[0].off' \
    'frag[0].more' \
    'frag[0].id' \
    'frag[-1].next' \
    'frag[-1].off' \
    'frag[-1].more' \
    'frag[-1].id' \
    'tcp[0].sport' \
    'tcp[0].dport' \
    'tcp[0].seq' \
    'tcp[0].ack' \
    'tcp[0].off' \
    'tcp[0].flags' \
    'tcp[0].window' \
    'tcp[0].sum' \
    'tcp[0].urg' \
    'tcp[-1].sport' \
    'tcp[-1].dport' \
    'tcp[-1].seq' \
    'tcp[-1].ack' \
    'tcp[-1].off' \
    'tcp[-1].flags' \
    'tcp[-1].window' \
    'tcp[-1].sum' \
    'tcp[-1].urg' \
    'udp[0].sport' \
    'udp[0].dport' \
    'udp[0].len' \
    'udp[0].sum' \
    'udp[-1].sport' \
    'udp[-1].dport' \
    'udp[-1].len' \
    'udp[-1].sum' \
    'icmp[0].type' \
    'icmp[0].code' \
    'icmp[0].sum' \
    'icmp[0].rest' \
    'icmp[-1].type' \
    'icmp[-1].code' \
    'icmp[-1].sum' \
    'icmp[-1].rest' \
    'icmp6[0].type' \
    'icmp6[0].code' \
    'icmp6[0].sum' \
    'icmp6[0].rest' \
    'icmp6[-1].type' \
    'icmp6[-1].code' \
    'icmp6[-1].sum' \
    'icmp6[-1].rest' \
    'gre[0].c' \
    'gre[0].k' \
    'gre[0].s' \
    'gre[0].version' \
    'gre[0].proto' \
    'gre[0].sum' \
    'gre[0].key' \
    'gre[0].seq' \
    'gre[-1].c' \
    'gre[-1].k' \
    'gre[-1].s' \
    'gre[-1].version' \
    'gre[-1].proto' \
    'gre[-1].sum' \
    'gre[-1].key' \
    'gre[-1].seq' \
    'vxlan[0].flags' \
    'vxlan[0].vni' \
    'vxlan[-1].flags' \
    'vxlan[-1].vni'

complete -c dshark -f
complete -c dshark -n 'test (count (commandline -opc)) -eq 1' -a 'count' -d 'Groups the records of CAPTURE that have the same FIELD within WINDOW nanoseconds (0 to 3600000000000), and prints the report'
complete -c dshark -n '__fish_seen_subcommand_from count; and test (count (commandline -opc)) -eq 2' -a "$fields"
complete -c dshark -n '__fish_seen_subcommand_from count; and test (count (commandline -opc)) -eq 4' -F
complete -c dshark -n 'test (count (commandline -opc)) -eq 1' -a 'stack' -d 'Prints the headers of each packet of CAPTURE, or its FIELD alone'
complete -c dshark -n '__fish_seen_subcommand_from stack' -F
complete -c dshark -n '__fish_seen_subcommand_from stack' -l port -x -d 'the UDP port of VXLAN, 1 to 65535 (default 4789)'
complete -c dshark -n '__fish_seen_subcommand_from stack' -l field -x -a "$fields" -d 'the field to print (default: the headers)'
complete -c dshark -n 'test (count (commandline -opc)) -eq 1' -a 'check' -d 'Reads the job in the file JOB, and prints it in its canonical form'
complete -c dshark -n '__fish_seen_subcommand_from check; and test (count (commandline -opc)) -eq 2' -F
complete -c dshark -n 'test (count (commandline -opc)) -eq 1' -a 'central' -d 'Reads every capture that JOB names, and prints groups, delays and counts'
complete -c dshark -n '__fish_seen_subcommand_from central; and test (count (commandline -opc)) -eq 2' -F
complete -c dshark -n 'test (count (commandline -opc)) -eq 1' -a 'run' -d 'Prints the report of central, line by line as soon as each is settled'
complete -c dshark -n '__fish_seen_subcommand_from run' -F
complete -c dshark -n '__fish_seen_subcommand_from run' -l parsers -x -d 'how many nodes read captures, 1 to 16 (default 2)'
complete -c dshark -n '__fish_seen_subcommand_from run' -l groupers -x -d 'how many gather the copies, 1 to 16 (default 2)'
complete -c dshark -n '__fish_seen_subcommand_from run' -l processors -x -d 'how many judge them, 1 to 16 (default 2)'
complete -c dshark -n '__fish_seen_subcommand_from run' -l credits -x -d 'frames under way on a link, 1 to 1024 (default 16)'
complete -c dshark -n 'test (count (commandline -opc)) -eq 1' -a 'sample' -d 'Runs over captures made of the number N (below 2^64), and prints totals'
complete -c dshark -n '__fish_seen_subcommand_from sample' -l parsers -x -d 'how many nodes read captures, 1 to 16 (default 2)'
complete -c dshark -n '__fish_seen_subcommand_from sample' -l groupers -x -d 'how many gather the copies, 1 to 16 (default 2)'
complete -c dshark -n '__fish_seen_subcommand_from sample' -l processors -x -d 'how many judge them, 1 to 16 (default 2)'
complete -c dshark -n '__fish_seen_subcommand_from sample' -l credits -x -d 'frames under way on a link, 1 to 1024 (default 16)'
complete -c dshark -n 'test (count (commandline -opc)) -eq 1' -a '--help' -d 'Prints this text'
complete -c dshark -n 'test (count (commandline -opc)) -eq 1' -a '--version' -d 'Prints the version'

# Completes the words of rpki(1) in fish.
set -l first 'not __fish_seen_subcommand_from show validate tree prepare complete help'
set -l show '__fish_seen_subcommand_from show'
set -l validate '__fish_seen_subcommand_from validate'
set -l tree '__fish_seen_subcommand_from tree'
set -l complete '__fish_seen_subcommand_from complete'
# the kind is the first word behind `prepare`
set -l kinds ca ee detached router anchor
set -l kindless "__fish_seen_subcommand_from prepare; and not __fish_seen_subcommand_from $kinds list"
set -l certificate "__fish_seen_subcommand_from prepare; and __fish_seen_subcommand_from $kinds"
set -l list '__fish_seen_subcommand_from prepare; and __fish_seen_subcommand_from list'
set -l prepare "__fish_seen_subcommand_from prepare; and __fish_seen_subcommand_from $kinds list"
set -l issuing "$complete; or begin; $prepare; end"
set -l walks '__fish_seen_subcommand_from validate tree'
set -l each '__fish_seen_subcommand_from show validate tree'
set -l all "$each; or begin; $issuing; end"

complete -c rpki -n $first -f
complete -c rpki -n '__fish_seen_subcommand_from help' -f -a 'show validate tree prepare complete'
complete -c rpki -n $first -a show -d 'Print what certificates, lists and locators hold'
complete -c rpki -n $first -a validate -d 'Validate a path of certificates'
complete -c rpki -n $first -a tree -d 'Judge every certificate among files'
complete -c rpki -n $first -a prepare -d 'Write what is to be signed of a certificate or a list'
complete -c rpki -n $first -a complete -d 'Write the certificate or the list that it becomes by its signature'
complete -c rpki -n $first -a help -d 'Print the commands'
complete -c rpki -n $first -s V -l version -d 'Print the version'
complete -c rpki -n $first -s h -l help -d 'Print the commands'

complete -c rpki -n $each -s o -l output -x -a 'text json jsonl' -d 'Print the answer in this format'
complete -c rpki -n $each -s j -l json -d 'Print JSON'
complete -c rpki -n $each -s q -l quiet -d 'Print nothing, and end with the status'
complete -c rpki -n $all -s h -l help -d 'Print the commands'
complete -c rpki -n $all -l at -x -d 'Judge at this moment (YYYY-MM-DD)'
complete -c rpki -n $all -l lenient -d 'Let any string type stand in names'
complete -c rpki -n $each -l max-size -x -d 'Refuse a file with more octets'

complete -c rpki -n $walks -l depth -x -d 'Look at paths of at most so many certificates'
complete -c rpki -n $walks -l steps -x -d 'Take at most so many steps below each trust anchor'
complete -c rpki -n $walks -l no-names -d 'Do not ask that names chain'

complete -c rpki -n $show -l all -d 'Print every entry of a list'

complete -c rpki -n $validate -l tal -r -F -d 'Add a locator of the trust anchor'
complete -c rpki -n $validate -l crl -r -F -d 'Add a revocation list'
complete -c rpki -n $validate -l in -r -F -d 'Seek the path to a file in a folder'
complete -c rpki -n $validate -l trust-first -d 'Accept any trust anchor'
complete -c rpki -n $validate -l no-crl -d 'Check no revocation'

complete -c rpki -n $tree -l tal -r -F -d 'Add a locator of the trust anchor'
complete -c rpki -n $tree -l only -x -a rejected -d 'Print only certificates with this verdict'
complete -c rpki -n $tree -l strict-exit -d 'End with 1 also if the cache is damaged'

complete -c rpki -n $issuing -l issuer -r -F -d 'Add a certificate of the path of the issuer'
complete -c rpki -n $issuing -l crl -r -F -d 'Add a list with which that path is judged'
complete -c rpki -n $issuing -l out -r -F -d 'Write to this file'
complete -c rpki -n $issuing -l force -d 'Overwrite that file'

complete -c rpki -n $kindless -f -a "$kinds list"
complete -c rpki -n $prepare -f
complete -c rpki -n $certificate -l key -r -F -d 'The key of the subject'
complete -c rpki -n $prepare -l serial -x -d 'The serial number, or one that is revoked'
complete -c rpki -n $certificate -l from -x -d 'The first moment of the validity (YYYY-MM-DD)'
complete -c rpki -n $certificate -l until -x -d 'The last moment of the validity (YYYY-MM-DD)'
complete -c rpki -n $certificate -l ipv4 -x -d 'Add IPv4 addresses'
complete -c rpki -n $certificate -l ipv6 -x -d 'Add IPv6 addresses'
complete -c rpki -n $certificate -l as -x -d 'Add AS numbers'
complete -c rpki -n $certificate -l repository -x -d 'Where the subject publishes'
complete -c rpki -n $certificate -l manifest -x -d 'Where its manifest is'
complete -c rpki -n $certificate -l notify -x -d 'Where its notification file is'
complete -c rpki -n $certificate -l object -x -d 'Where the signed object is'
complete -c rpki -n $certificate -l issuer-uri -x -d 'Where the certificate of the issuer is'
complete -c rpki -n $certificate -l crl-uri -x -d 'Where the list of the issuer is'
complete -c rpki -n $certificate -l trim -d 'Trim resources that the issuer does not hold'

complete -c rpki -n $list -l previous -r -F -d 'The list before'
complete -c rpki -n $list -l number -x -d 'The number of the list'
complete -c rpki -n $list -l next-update -x -d 'After which moment it is stale (YYYY-MM-DD)'
complete -c rpki -n $list -l revoke -r -F -d 'Add a certificate that is revoked'

complete -c rpki -n $complete -l pem -d 'Write PEM'

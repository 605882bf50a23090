# Completion of decl in fish. `make install` puts it among the vendor completions.

function __decl_wants --description 'Whether the option can still be given after what was typed'
    set -l given (commandline -opc)
    if contains -- fmt $given; and test "$argv[1]" != make
        return 1
    end
    if contains -- cert $given; and not contains -- $argv[1] bs log2 make
        return 1
    end
    if contains -- verify $given; and not contains -- $argv[1] bs log2
        return 1
    end
    # The value of the option itself is completed too.
    if test "$given[-1]" = "--$argv[1]"
        return 0
    end
    not contains -- --$argv[1] $given; and not string match -q -- "--$argv[1]=*" $given
end

function __decl_powers --description 'The powers of two that a grid can have'
    if contains -- cert (commandline -opc); or contains -- verify (commandline -opc)
        seq 1 10
    else
        seq 1 16
    end
end

complete -c decl -f
complete -c decl -n 'not __fish_seen_subcommand_from run fmt cert verify' -a run -d 'answer asks about a text'
complete -c decl -n 'not __fish_seen_subcommand_from run fmt cert verify' -a fmt -d 'write a text in its one spelling'
complete -c decl -n 'not __fish_seen_subcommand_from run fmt cert verify' -a cert -d 'write a certificate of the total'
complete -c decl -n 'not __fish_seen_subcommand_from run fmt cert verify' -a verify -d 'check a certificate behind a text'
complete -c decl -n '__fish_seen_subcommand_from run' -a pmf: -d 'probability that the total is x'
complete -c decl -n '__fish_seen_subcommand_from run' -a cdf: -d 'probability of at most x'
complete -c decl -n '__fish_seen_subcommand_from run' -a mean -d 'mean of the total'
complete -c decl -n '__fish_seen_subcommand_from run' -a q: -d 'quantile at p'
complete -c decl -n '__fish_seen_subcommand_from run' -a layer: -d 'mean of a layer LxsA'
complete -c decl -n '__fish_seen_subcommand_from run' -a tail: -d 'tail mean at p'
complete -c decl -n '__fish_seen_subcommand_from run' -a price: -d 'weighted tail means'
complete -c decl -n '__fish_seen_subcommand_from run' -a joint: -d 'joint mean of a unit at x'
complete -c decl -n '__fish_seen_subcommand_from run' -a kappa: -d 'share of a unit in a total of x'
complete -c decl -n '__fish_seen_subcommand_from run' -a cotail: -d 'share of a unit in the tail mean at p'
complete -c decl -n '__decl_wants bs' -l bs -x -d 'size of a bucket, in money'
complete -c decl -n '__decl_wants log2' -l log2 -x -a '(__decl_powers)' -d 'the grid has 2^N buckets'
complete -c decl -n '__decl_wants digits' -l digits -x -a '(seq 1 9)' -d 'digits behind the point'
complete -c decl -n '__decl_wants width' -l width -x -d 'width of probabilities, in last digits'
complete -c decl -n '__decl_wants mwidth' -l mwidth -x -d 'width of means, in last digits'
complete -c decl -n '__decl_wants format' -l format -x -a 'text csv json' -d 'form of the report'
complete -c decl -n '__decl_wants rules' -l rules -x -a 'standard extended' -d 'rules that a text is held to'
complete -c decl -n '__decl_wants make' -l make -x -d 'evaluate a made program'

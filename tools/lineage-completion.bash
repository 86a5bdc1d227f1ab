# Completes the first word of the program and of ./lineage, and the files after `<` as ever:
#     . tools/lineage-completion.bash
complete -o default -W "append back expose fmt follow fwd gen help hist light load pack prove range root scan trace \
upgrade verify --help --install --proved --prove --test --version" lineage ./lineage

# Where the program is part of the repository, its text is compared too.
showrun=
if grep -q '^showrun:' ../crates.txt; then
    (cd ../crates/showrun && rt run <stdin) >../target/showrun.log 2>&1 || { cat ../target/showrun.log; exit 1; }
    showrun="--showrun ../crates/showrun/out/showrun"
fi

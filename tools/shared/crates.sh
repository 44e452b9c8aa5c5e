# Reads crates.txt at the top of the repository: `uses` has by each crate's name the libraries that its line names.
declare -A uses=()
while IFS=: read -r head names; do
  head=${head%% *}
  [ -z "$head" ] || uses[$head]=$names
done < <(sed 's/#.*//' "$top/crates.txt")

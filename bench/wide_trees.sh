# Wide trees within the limits, for the scripts that time plans and certificates: 32 nodes, ten loops a node.
# To be read by `.` with the script's words, of which the first may name the built program: it reads build.sh, sets
# `program`, and makes four.tce, the term of four tensors. `each_tree ACTION` calls `ACTION NAME FORMULA` for each tree.

rounds=${ROUNDS:-5}
. "$(dirname "$0")/build.sh"
set_program "$@"
make_spent
cp "$top/examples/four/e3.tce" four.tce

declared='range N 3
index N a b c d e f g h i j
tensor A[N,N,N,N,N,N,N,N]
tensor B[N,N,N,N,N,N,N,N]
tensor S[N,N,N,N,N,N,N,N]
tensor T[N,N,N,N,N,N]
tensor M[N,N]
tensor V[]'
left='A[a,b,c,d,e,f,g,h]'
right='B[c,d,e,f,g,h,i,j]'

# so many factors, turn by turn of the two
chain() {
    factors=$left
    count=1
    while [ "$count" -lt "$1" ]; do
        if [ $((count % 2)) -eq 1 ]; then factors="$factors * $right"; else factors="$factors * $left"; fi
        count=$((count + 1))
    done
    echo "$factors"
}

# so many factors, grouped to the right
right_chain() {
    if [ "$1" -eq 1 ]; then echo "$left"; else echo "$right * ($(right_chain $(($1 - 1))))"; fi
}

# a balanced tree of 2^n factors
balanced() {
    if [ "$1" -eq 0 ]; then echo "$left"; else echo "($(balanced $(($1 - 1)))) * ($(balanced $(($1 - 1)) | tr 'a-j' 'c-jab'))"; fi
}

# so many times a product of ten loops that is summed over two
summed() {
    if [ "$1" -eq 0 ]; then echo "$left"; else echo "sum{a,b}($(summed $(($1 - 1))) * $right) * M[a,b]"; fi
}

each_tree() {
    "$1" "left-deep chain of 31 products" "S[a,b,c,d,e,f,g,h] = sum{i,j}($(chain 32))"
    "$1" "right-deep chain of 31 products" "S[a,b,c,d,e,f,g,h] = sum{i,j}($(right_chain 32))"
    "$1" "balanced tree of 15 products" "V[] = sum{a,b,c,d,e,f,g,h,i,j}($(balanced 4))"
    for levels in 1 3 6 10; do
        "$1" "sums of products, $levels levels" "S[a,b,c,d,e,f,g,h] = sum{i,j}($(summed "$levels") * $right)"
    done
    "$1" "five outer products" 'V[] = sum{a,b,c,d,e,f,g,h,i,j}(M[a,b] * M[c,d] * M[e,f] * M[g,h] * M[i,j])'
    "$1" "sum of a product of two sums of products" 'S[a,b,c,d,e,f,g,h] = sum{i,j}(sum{a,b}(A[a,b,c,d,e,f,g,h] * B[c,d,e,f,g,h,i,j]) * sum{c,d}(A[c,d,e,f,g,h,i,j] * B[a,b,c,d,e,f,g,h]))'
    "$1" "balanced products of four sums" 'V[] = sum{a,b,c,d,e,f,g,h}((sum{i}(A[a,b,c,d,e,f,g,i]) * sum{j}(A[b,c,d,e,f,g,h,j])) * (sum{i}(B[a,c,d,e,f,g,h,i]) * sum{j}(B[a,b,c,d,e,f,h,j])))'
}

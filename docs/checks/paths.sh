# files that pages and the crates' READMEs name
paths() {
    grep -oE '`(crates|docs|second|examples|bench|library|include)/[A-Za-z0-9_./*-]+`' $pages crates/*/README.md | sort -u |
        while IFS=: read -r page path; do
            path=${path//\`/}
            # what is made, and not kept
            case $path in second/build/* | bench/build/* | library/build/*) continue ;; esac
            path=${path/crates\/NAME\//crates/*/}
            # a pattern is there if a file of that form is
            if compgen -G "$path" >/dev/null; then echo ok; else echo "$page names $path, which is not there"; fi
        done
    # links on a page lead to a file, and to a heading of it where they name one; both are found from the page's folder
    # shellcheck disable=SC2086
    grep -oE '\]\([A-Za-z0-9_./#-]+\)' $pages | sort -u |
        while IFS=: read -r page link; do
            link=${link#](} link=${link%)}
            case $link in '#'*) path=$page ;; *) path=$(dirname "$page")/${link%%#*} ;; esac
            if [ ! -e "$path" ]; then echo "$page has a link to $link, which is not there"
            elif [[ $link == *'#'* ]] && ! sed -n 's/^##* //p' "$path" | tr 'A-Z ' 'a-z-' | tr -cd 'a-z0-9_\n-' | grep -qxF -e "${link#*#}"; then echo "$page has a link to $link, and there is no such heading"
            else echo ok; fi
        done
    # a crate's README names its own files by the end of their paths, and those of others from the crate's name on
    grep -oE '`[A-Za-z0-9_/-]+\.(antt|rt|edit)`' crates/*/README.md | tr -d '`' | grep -v ':crates/' | sort -u |
        while IFS=: read -r page file; do
            if [ -f "crates/$file" ] || [ -n "$(find "$(dirname "$page")" -path "*/$file")" ]; then echo ok; else echo "$page names $file, which is not there"; fi
        done
}

#!/usr/bin/env bash
# Renders README.md and docs/*.md to HTML, to look at them in a browser: FOLDER/README.html and FOLDER/docs/*.html, with the pictures and with links between them.
#   tools/render_pages.sh FOLDER
# Needs pandoc (Debian's package of that name): its reader of GitHub's Markdown takes tables and anchors of headings as the repository's pages are shown elsewhere.
set -eu
top=$(cd "$(dirname "${BASH_SOURCE[0]}")/.." && pwd)
[ $# = 1 ] || { echo "usage: tools/render_pages.sh FOLDER" >&2; exit 2; }
mkdir -p "$1/docs"
into=$(realpath "$1")
cd "$top"
cat > "$into/style.html" <<'STYLE'
<style>
body { max-width: 60em; margin: 2em auto; padding: 0 1em; font: 16px/1.5 sans-serif; }
table { border-collapse: collapse; width: 100%; margin: 1em 0; }
td:first-child code { white-space: nowrap; }
th, td { border: 1px solid #bbb; padding: 0.3em 0.6em; text-align: left; vertical-align: top; }
code, pre { background: #f3f3f3; font-size: 90%; }
pre { padding: 0.7em; overflow-x: auto; }
img { max-width: 100%; }
</style>
STYLE
# Links between pages lead to the rendered ones.
cat > "$into/links.lua" <<'LUA'
function Link(link)
  if not link.target:match("^%a+:") then link.target = link.target:gsub("%.md$", ".html"):gsub("%.md#", ".html#") end
  return link
end
LUA
count=0
for page in README.md docs/*.md; do
  pandoc --from=gfm --to=html5 --standalone --columns=10000 --include-in-header="$into/style.html" --lua-filter="$into/links.lua" \
    --metadata=pagetitle="$(sed -n '1s/^# //p' "$top/$page")" --output="$into/${page%.md}.html" "$top/$page"
  count=$((count + 1))
done < /dev/null
cp "$top"/docs/*.svg "$into/docs"
rm "$into/style.html" "$into/links.lua"
echo "$count pages in $into"

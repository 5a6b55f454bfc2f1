# Draws the lines of s3w2_levels as an SVG picture. A line is L, the frames of a tenth of a second, of the left side the peak, the sum of the
# squares and the overs, the same of the right one, and the peak of each voice; values are ahead of the clamp, and 32,768 is 0 dBFS.
BEGIN {
    FS = ","
    WIDTH = 1200; LEFT = 90; PLOT = 1080; LOW = -60; HIGH = 12.1; SIDE = 190; ROW = 22
    MOST = 1080 # columns: a longer log has several tenths in one
}
$1 == "L" { n++; for (k = 2; k <= 16; k++) value[n, k] = $k; frames += $2 }
function db(size) { return size > 0 ? 20 * log(size / 32768) / log(10) : -999 }
function most(a, b) { return a + 0 > b + 0 ? a + 0 : b + 0 }
function escaped(words) {
    gsub(/&/, "\\&amp;", words)
    gsub(/</, "\\&lt;", words)
    gsub(/>/, "\\&gt;", words)
    gsub(/[^ -~]/, "?", words)
    return words
}
function x(c) { return LEFT + PLOT * start[c] / (frames > 0 ? frames : 1) }
function text(at, y, words, more) { printf "<text x=\"%.1f\" y=\"%.1f\"%s>%s</text>\n", at, y, more, words }
function rect(a, y, b, height, more) { printf "<rect x=\"%.2f\" y=\"%.2f\" width=\"%.2f\" height=\"%.2f\"%s/>\n", a, y, b - a, height, more }
# columns of as many tenths as fit
function gather(    each, c, k, j) {
    each = int((n + MOST - 1) / MOST)
    if (each < 1) each = 1
    for (j = 1; j <= n; j++) {
        c = int((j - 1) / each) + 1
        if (c > columns) { columns = c; start[c] = at + 0 }
        at += value[j, 2]
        held[c] += value[j, 2]
        for (k = 3; k <= 16; k++)
            if (k == 4 || k == 5 || k == 7 || k == 8) { sum[c, k] += value[j, k]; whole[k] += value[j, k] }
            else { sum[c, k] = most(sum[c, k], value[j, k]); whole[k] = most(whole[k], value[j, k]) }
    }
    start[columns + 1] = frames
}
function height(level) { return top + (HIGH - (level < LOW ? LOW : level > HIGH ? HIGH : level)) * SIDE / (HIGH - LOW) }
# the level of column c: its peak, or its mean
function level_of(c, first, mean) { return db(mean ? sqrt(sum[c, first + 1] / (held[c] > 0 ? held[c] : 1)) : sum[c, first]) }
function area(first, mean, color,    c) {
    printf "<path fill=\"%s\" d=\"M%.2f %.2f", color, LEFT, top + SIDE
    for (c = 1; c <= columns; c++) printf "V%.2fH%.2f", height(level_of(c, first, mean)), x(c + 1)
    printf "V%.2fZ\"/>\n", top + SIDE
}
function side(name, first,    c, k, overs, mean, words, from) {
    overs = whole[first + 2]
    mean = frames > 0 ? sqrt(whole[first + 1] / frames) : 0
    text(LEFT, top - 8, name, " font-weight=\"bold\"")
    words = whole[first] > 0 ? sprintf("peak %.1f dBFS, mean %.1f dBFS", db(whole[first]), db(mean)) : "silent"
    text(LEFT + 60, top - 8, words)
    words = overs == 0 ? "nothing over" : sprintf("%d frame%s over", overs, overs == 1 ? "" : "s")
    text(LEFT + PLOT, top - 8, words, " text-anchor=\"end\"" (overs > 0 ? " fill=\"#c00000\" font-weight=\"bold\"" : ""))
    rect(LEFT, top, LEFT + PLOT, SIDE, " fill=\"#f7f7f7\"")
    area(first, 0, "#9dc3e6")
    area(first, 1, "#2f75b5")
    # overs: what stands above 0 dBFS, at least two wide and three high, in runs of columns
    for (c = 1; c <= columns; c++)
        if (sum[c, first + 2] > 0) {
            k = height(most(level_of(c, first, 0), 0.5))
            rect(x(c), k, most(x(c + 1), x(c) + 2), most(height(0) - k, 3), " fill=\"#e00000\"")
        }
    for (k = 12; k >= LOW; k -= 12) {
        printf "<path d=\"M%.1f %.1fH%.1f\" stroke=\"%s\" fill=\"none\"/>\n", LEFT, height(k), LEFT + PLOT, k == 0 ? "#404040" : "#d0d0d0"
        text(LEFT - 8, height(k) + 4, k == 0 ? "0 dBFS" : k, " text-anchor=\"end\"")
    }
}
# how loud a voice is, in nine steps: 0 is silent, 1 is below -42 dBFS, 8 is 0 dBFS
function step_of(size,    level) {
    if (size == 0) return 0
    level = 8 + int((db(size) - 5.9) / 6)
    return level < 1 ? 1 : level > 8 ? 8 : level
}
function voice(channel, y,    c, from, now, next_) {
    text(LEFT - 8, y + 15, "voice " channel, " text-anchor=\"end\"")
    rect(LEFT, y, LEFT + PLOT, ROW - 4, " fill=\"#f7f7f7\"")
    from = 1
    for (c = 1; c <= columns; c++) {
        now = step_of(sum[c, 9 + channel])
        next_ = c < columns ? step_of(sum[c + 1, 9 + channel]) : -1
        if (now != next_) {
            if (now > 0) rect(x(from), y, x(c + 1), ROW - 4, sprintf(" fill=\"#548235\" fill-opacity=\"%.2f\"", 0.2 + now / 10))
            from = c + 1
        }
    }
}
function clock_of(seconds) {
    if (seconds >= 60) return sprintf("%d:%02d", seconds / 60, seconds % 60)
    return sprintf(seconds == int(seconds) ? "%d s" : "%.1f s", seconds)
}
function time_axis(y,    length_, gap, k, gaps, count, at) {
    length_ = frames / 48000
    count = split("0.1 0.2 0.5 1 2 5 10 20 30 60 120 300 600 1200 1800 3600 7200 18000 36000", gaps, " ")
    for (k = 1; k <= count && length_ / gaps[k] > 12; k++);
    gap = k <= count ? gaps[k] : length_ / 10
    for (k = 0; k * gap <= length_; k++) {
        at = LEFT + (length_ > 0 ? PLOT * k * gap / length_ : 0)
        printf "<path d=\"M%.1f %.1fv6\" stroke=\"#404040\" fill=\"none\"/>\n", at, y
        text(at, y + 20, clock_of(k * gap), " text-anchor=\"middle\"")
    }
}
function length_told() {
    if (frames == 0) return "no frames"
    return sprintf("%d frame%s, ", frames, frames == 1 ? "" : "s") \
        (frames < 4800 ? sprintf("%.3f ms", frames / 48) : sprintf("%.1f s", frames / 48000))
}
END {
    gather()
    title = ENVIRON["TITLE"]
    if (length(title) > 90) title = substr(title, 1, 87) "..."
    HEIGHT = 2 * (SIDE + 45) + 8 * ROW + 122
    print "<?xml version=\"1.0\" encoding=\"UTF-8\"?>"
    printf "<svg xmlns=\"http://www.w3.org/2000/svg\" width=\"%d\" height=\"%d\" viewBox=\"0 0 %d %d\"", WIDTH, HEIGHT, WIDTH, HEIGHT
    print " font-family=\"sans-serif\" font-size=\"13\" fill=\"#202020\">"
    rect(0, 0, WIDTH, HEIGHT, " fill=\"#ffffff\"")
    text(LEFT, 28, escaped(title), " font-size=\"16\" font-weight=\"bold\"")
    text(LEFT + PLOT, 28, length_told(), " text-anchor=\"end\"")
    top = 75
    side("left", 3)
    top += SIDE + 45
    side("right", 6)
    top += SIDE + 20
    for (k = 0; k < 8; k++) voice(k, top + k * ROW)
    time_axis(top + 8 * ROW)
    y = top + 8 * ROW + 38
    rect(LEFT, y, LEFT + 14, 12, " fill=\"#9dc3e6\""); text(LEFT + 20, y + 11, "peak")
    rect(LEFT + 70, y, LEFT + 84, 12, " fill=\"#2f75b5\""); text(LEFT + 90, y + 11, "mean")
    rect(LEFT + 150, y, LEFT + 164, 12, " fill=\"#e00000\""); text(LEFT + 170, y + 11, "over: 16 bits cut it")
    rect(LEFT + 330, y, LEFT + 344, 12, " fill=\"#548235\""); text(LEFT + 350, y + 11, "a voice's peak, the louder the darker, in steps of 6 dB")
    print "</svg>"
}

# Shows how far a run is, on standard error, in one line that is written again and again: where `shows` is 1. A frame is 1/48,000 s.
# With `mode` told it reads what a program says of its run, takes the lines `frames,COUNT` and prints the others. With `mode` lines it reads
# what a program prints, counts the lines of frames, and prints the line that tells how the run ended: `state` where a state follows them.
function now(    line) {
    if ((getline line < "/proc/uptime") <= 0) return 0
    close("/proc/uptime")
    return line + 0
}
function show(frames, last,    time, spent) {
    if (!shows) return
    time = now()
    if (!last && time - shown < 0.2) return
    shown = time
    spent = time - began
    spent = spent < 0.01 ? 0.01 : spent
    printf "\r%s: %d frames, %.1f s of sound, %.0f times real time\033[K", name, frames, frames / 48000, frames / 48000 / spent > "/dev/stderr"
    visible = 1
    fflush("/dev/stderr")
}
BEGIN { if (shows) began = shown = now() }
mode == "told" && /^frames,/ { frames = substr($0, 8) + 0; show(frames, 0); next }
mode == "told" { if (/^played,/) frames = substr($0, 8) + 0; print; fflush(); next }
state { next }
/^F/ { if (++frames % 4800 == 0) show(frames, 0) }
/^S3W2,/ { state = 1 }
{ last = $0 }
END {
    if (visible) { show(frames, 1); printf "\n" > "/dev/stderr" }
    if (mode == "lines") print state ? "state" : last
}

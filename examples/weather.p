% Run it in the folder above: files that are included are found from where the program runs.
include('examples/weather.ax').
thf(dry,axiom,( ~ wet )).
thf(neither,conjecture,( ~ ( rain | snow ) )).

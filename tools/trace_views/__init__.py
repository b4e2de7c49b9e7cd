"""What ../../trace_picture is made of.

    reading    the text of a trace or of a log, as events
    story      what the events of a trace say of each task, phaser and finish
    log_story  what the lines of a log say
    span       the places that are drawn
    picture    a story as SVG, by the marks of shapes
    perfetto   a story as Chrome trace events
    command    the words of the command line, the files and the statuses
"""

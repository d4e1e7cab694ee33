//! `trace`: what a point meets that moves along a line, by both traces.

use crate::args::Trace;
use crate::failure::Failure;
use crate::map::{self, Source};
use crate::out::{self, Report};
use crate::text::path_text;
use bsp29::{LineTrace, TraceEnd};
use serde::Serialize;
use std::io::{self, Write};

#[derive(Serialize)]
struct Traced {
    file: String,
    model: usize,
    hull: u8,
    from: [f32; 3],
    to: [f32; 3],
    /// The whole line, by the rule of id Software's world.c.
    line: Line,
    /// The trace of the engine richter, to the letter.
    trace: Step,
}

#[derive(Serialize)]
struct Line {
    fraction: f32,
    end: [f32; 3],
    /// None where no plane was met.
    plane: Option<Plane>,
    all_solid: bool,
    start_solid: bool,
    in_open: bool,
    in_water: bool,
}

#[derive(Serialize)]
struct Step {
    /// `terminal`, within a leaf, or `boundary`, at a plane.
    kind: &'static str,
    end: [f32; 3],
    /// Along the part of the line that was left at the plane's node; 1 for a terminal end.
    ratio: f32,
    plane: Option<Plane>,
    contents: String,
    start_solid: bool,
    visits: u64,
}

#[derive(Serialize)]
struct Plane {
    normal: [f32; 3],
    dist: f32,
}

/// Traces the line.
pub fn run(args: &Trace, json: bool) -> Result<u8, Failure> {
    let source = Source::read(&args.file)?;
    let map = source.map()?;
    let traced = || {
        let hull = map.hull(args.hull.model, args.hull.hull.into())?;
        map::traces(&map, &hull, args.from.0, args.to.0)
    };
    let (line, trace) =
        traced().map_err(|refusal| Failure::refused(&source.path, "the trace", refusal))?;
    let traced = Traced {
        file: path_text(&source.path),
        model: args.hull.model,
        hull: args.hull.hull,
        from: args.from.0,
        to: args.to.0,
        line: Line::of(&line),
        trace: Step::of(&trace),
    };
    out::print(&traced, json)?;
    Ok(crate::YES)
}

impl Line {
    fn of(line: &LineTrace) -> Line {
        let plane = Plane { normal: line.normal, dist: line.dist };
        Line {
            fraction: line.fraction,
            end: line.end,
            plane: (line.normal != [0.0; 3] || line.dist != 0.0).then_some(plane),
            all_solid: line.all_solid,
            start_solid: line.start_solid,
            in_open: line.in_open,
            in_water: line.in_water,
        }
    }
}

impl Step {
    fn of(trace: &bsp29::Trace) -> Step {
        let (kind, plane) = match trace.kind {
            TraceEnd::Terminal => ("terminal", None),
            TraceEnd::Boundary { plane, .. } => {
                ("boundary", Some(Plane { normal: plane.normal, dist: plane.dist }))
            }
        };
        Step {
            kind,
            end: trace.end,
            ratio: trace.ratio(),
            plane,
            contents: trace.contents.to_string(),
            start_solid: trace.start_solid,
            visits: trace.visits,
        }
    }
}

/// A point, or a normal.
fn three([x, y, z]: [f32; 3]) -> String {
    format!("{x} {y} {z}")
}

fn plane(plane: &Option<Plane>) -> String {
    match plane {
        Some(plane) => format!("normal {}, distance {}", three(plane.normal), plane.dist),
        None => "none".to_string(),
    }
}

impl Report for Traced {
    fn text(&self, out: &mut dyn Write) -> io::Result<()> {
        let (from, to) = (three(self.from), three(self.to));
        writeln!(out, "from {from} to {to}, hull {} of model {}", self.hull, self.model)?;
        writeln!(out, "\nwhole line")?;
        writeln!(out, "fraction  {}", self.line.fraction)?;
        writeln!(out, "end       {}", three(self.line.end))?;
        writeln!(out, "plane     {}", plane(&self.line.plane))?;
        writeln!(out, "flags     {}", self.line.flags())?;
        writeln!(out, "\ntrace of the engine richter")?;
        writeln!(out, "kind      {}", self.trace.kind)?;
        writeln!(out, "ratio     {}", self.trace.ratio)?;
        writeln!(out, "end       {}", three(self.trace.end))?;
        writeln!(out, "plane     {}", plane(&self.trace.plane))?;
        let solid = if self.trace.start_solid { ", started solid" } else { "" };
        writeln!(out, "through   {}{solid}", self.trace.contents)?;
        writeln!(out, "visits    {}", self.trace.visits)
    }
}

impl Line {
    fn flags(&self) -> String {
        let flags = [
            (self.all_solid, "all solid"),
            (self.start_solid, "start solid"),
            (self.in_open, "in open"),
            (self.in_water, "in water"),
        ];
        let set: Vec<&str> = flags.iter().filter(|(set, _)| *set).map(|(_, name)| *name).collect();
        if set.is_empty() {
            "none".to_string()
        } else {
            set.join(", ")
        }
    }
}

// The model of a canonical text.
use std::collections::HashMap;

#[derive(Default)]
pub struct Row {
    decimals: usize,
    kind: String,
    written: Vec<(usize, String)>,
    side: Option<String>,
    range: Option<String>,
    pub coefs: Vec<(usize, i128)>,
    pub low: Option<i128>,
    pub high: Option<i128>,
}

pub struct Model {
    pub constant: i128,
    pub cost_decimals: usize,
    pub costs: Vec<i128>,
    pub area: Area,
    pub rows: Vec<Row>,
}

pub type Area = Vec<(i128, i128)>;

fn decimals(text: &str) -> usize {
    text.split_once('.').map_or(0, |(_, rest)| rest.len())
}

fn units(text: &str, places: usize) -> i128 {
    let (front, rest) = text.split_once('.').unwrap_or((text, ""));
    let digits = format!("{front}{rest}{}", "0".repeat(places - rest.len()));
    digits.parse().unwrap()
}

pub fn read(text: &str) -> Model {
    let mut section = "";
    let mut objective = String::new();
    let (mut names, mut columns) = (HashMap::new(), HashMap::new());
    let (mut rows, mut costs, mut area): (Vec<Row>, Vec<String>, Area) = Default::default();
    let mut constant = "0".to_string();
    for line in text.lines() {
        let fields: Vec<&str> = line.split_whitespace().collect();
        if !line.starts_with(' ') {
            section = line;
            continue;
        }
        match section {
            "ROWS" if fields[0] == "N" => objective = fields[1].to_string(),
            "ROWS" => {
                names.insert(fields[1].to_string(), rows.len());
                rows.push(Row { kind: fields[0].to_string(), ..Row::default() });
            }
            "COLUMNS" if fields[1] == "'MARKER'" => {}
            "COLUMNS" => {
                let next = columns.len();
                let column = *columns.entry(fields[0].to_string()).or_insert(next);
                if column == costs.len() {
                    costs.push("0".to_string());
                    area.push((0, 0));
                }
                if fields[1] == objective {
                    costs[column] = fields[2].to_string();
                } else {
                    rows[names[fields[1]]].written.push((column, fields[2].to_string()));
                }
            }
            "RHS" if fields[1] == objective => constant = fields[2].to_string(),
            "RHS" => rows[names[fields[1]]].side = Some(fields[2].to_string()),
            "RANGES" => rows[names[fields[1]]].range = Some(fields[2].to_string()),
            "BOUNDS" => {
                let side = fields[3].parse().unwrap();
                let of = &mut area[columns[fields[2]]];
                if fields[0] == "LO" { of.0 = side } else { of.1 = side }
            }
            _ => {}
        }
    }
    let cost_decimals = costs.iter().chain([&constant]).map(|text| decimals(text)).max().unwrap();
    for row in &mut rows {
        let others = row.side.iter().chain(&row.range).map(|text| decimals(text));
        row.decimals = row.written.iter().map(|pair| decimals(&pair.1)).chain(others).max().unwrap_or(0);
        row.coefs = row.written.iter().map(|(j, text)| (*j, units(text, row.decimals))).collect();
        let side = row.side.as_ref().map_or(0, |text| units(text, row.decimals));
        let range = row.range.as_ref().map(|text| units(text, row.decimals));
        (row.low, row.high) = match row.kind.as_str() {
            "L" => (range.map(|range| side - range), Some(side)),
            "G" => (Some(side), range.map(|range| side + range)),
            _ => (Some(side), Some(side)),
        };
    }
    Model {
        constant: -units(&constant, cost_decimals),
        cost_decimals,
        costs: costs.iter().map(|text| units(text, cost_decimals)).collect(),
        area,
        rows,
    }
}

mod instances;
mod maps;
mod scenarios;

module hindsight

go 1.19

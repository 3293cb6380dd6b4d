module lifeguard-agent.example/members

go 1.19
